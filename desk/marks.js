// The looks that are marked as flown in a page, kept in the browser's own store, so that they are there again when the page is opened anew.
// They are kept by the SHA-256 of the scenario with its plan: no other page has them. Where there is no store, the page warns before it is
// left.
const marks = (function () {
  let key = null;
  let isKept = true;
  let count = 0;

  // What the store has, or null: a browser may have none, or may not let a page that is a file have it.
  function stored() {
    try {
      return JSON.parse(window.localStorage.getItem(key));
    } catch {
      return null;
    }
  }

  // Whether nothing is lost when the page is left.
  function areSafe() {
    return isKept || count === 0;
  }

  function warn(event) {
    if (!areSafe()) {
      event.preventDefault();
      event.returnValue = true;
    }
  }

  // The marks that are kept of a plan (bytes of the scenario with the plan): numbers of positions, or none.
  async function begin(both) {
    key = `osp flown ${await told.sha256(both)}`;
    window.addEventListener("beforeunload", warn);
    const kept = stored();
    return Array.isArray(kept) ? kept : [];
  }

  // Keeps marks, of which so many were made here.
  function keep(flown, own) {
    count = own;
    try {
      if (own > 0) {
        window.localStorage.setItem(key, JSON.stringify(flown));
      } else {
        window.localStorage.removeItem(key);
      }
      isKept = own === 0 || window.localStorage.getItem(key) === JSON.stringify(flown);
    } catch {
      isKept = false;
    }
  }

  return { begin, keep, areSafe };
}());

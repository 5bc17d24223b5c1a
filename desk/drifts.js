// Shows the simulated drifts over the map where the box says so.
const drifts = (function () {
  // Takes the box that stands in the page now, if there is one.
  function begin() {
    const box = document.getElementById("drifts");
    if (box) {
      box.addEventListener("change", () => document.getElementById("map").toggleAttribute("data-drifts", box.checked));
    }
  }

  return { begin };
}());

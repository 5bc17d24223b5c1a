"use strict";
// Shows the map of one period at a time. All that it shows stands in the page: it makes no text of its own but the play button's.
const maps = (function () {
  const MILLISECONDS_A_PERIOD = 1000;
  const at = (id) => document.getElementById(id);
  let [frames, rows, timer] = [[], [], null];

  // Shows the frame of a period, and marks its row of the table.
  function show(period) {
    const here = Math.min(Math.max(period, 0), frames.length - 1);
    const caption = frames[here].querySelector("figcaption");
    frames.forEach((frame, number) => { frame.hidden = number !== here; });
    rows.forEach((row) => {
      const isHere = Number(row.dataset.period) === here;
      row.classList.toggle("here", isHere);
      row.querySelector(".step").setAttribute("aria-pressed", String(isHere));
    });
    at("period").value = String(here);
    at("period").setAttribute("aria-valuetext", caption.querySelector("strong").textContent);
    if (timer === null) {
      at("said").textContent = caption.innerText;
    }
  }

  function now() {
    return Number(at("period").value);
  }

  // Ends the play.
  function halt() {
    window.clearInterval(timer);
    timer = null;
  }

  function stop() {
    halt();
    at("play").textContent = "Play";
    show(now());
  }

  function step() {
    if (now() + 1 >= frames.length) {
      stop();
    } else {
      show(now() + 1);
    }
  }

  function start() {
    timer = window.setInterval(step, MILLISECONDS_A_PERIOD);
    at("play").textContent = "Pause";
    show(now() + 1 < frames.length ? now() + 1 : 0);
  }

  // Goes to a period by hand, which ends the play.
  function go(period) {
    if (timer !== null) {
      stop();
    }
    show(period);
  }

  // Arrow keys go from period to period, but where they are for what is written or chosen.
  function keys(event) {
    if (frames.length === 0 || event.altKey || event.ctrlKey || event.metaKey || event.shiftKey) {
      return;
    }
    const to = { ArrowLeft: now() - 1, ArrowRight: now() + 1, Home: 0, End: frames.length - 1 }[event.key];
    if (to !== undefined && !event.target.closest("input, select, textarea")) {
      event.preventDefault();
      go(to);
    }
  }

  // Escape hides the exact fraction that is shown.
  function escape(event) {
    if (event.key === "Escape" && document.activeElement.classList.contains("exact")) {
      document.activeElement.blur();
    }
  }

  // Takes the maps that stand in the page now, and shows that of a period.
  function begin(period = 0) {
    halt();
    frames = at("period") === null ? [] : Array.from(document.querySelectorAll(".frame"));
    rows = Array.from(document.querySelectorAll("tr[data-period]"));
    if (frames.length === 0) {
      return;
    }
    at("period").addEventListener("input", () => go(now()));
    at("back").addEventListener("click", () => go(now() - 1));
    at("forth").addEventListener("click", () => go(now() + 1));
    at("play").addEventListener("click", () => (timer === null ? start() : stop()));
    rows.forEach((row) => row.querySelector(".step").addEventListener("click", () => go(Number(row.dataset.period))));
    document.querySelectorAll("input[name=shares]").forEach((choice) => {
      choice.addEventListener("change", () => {
        at("map").className = choice.value;
        show(now());
      });
    });
    show(period);
  }

  document.documentElement.classList.add("script");
  document.addEventListener("keydown", escape);
  document.addEventListener("keydown", keys);
  begin();
  return { begin };
}());

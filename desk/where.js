// Says where on the earth the pointer is over a map: between the nodes of a mesh, whose places stand in the page.
const where = (function () {
  // The value of a share along each axis between the values of the nodes around it.
  function between(values, count, across, down) {
    const column = Math.min(Math.floor(across * count), count - 1);
    const row = Math.min(Math.floor(down * count), count - 1);
    const east = across * count - column;
    const south = down * count - row;
    const at = (r, c) => values[r * (count + 1) + c];
    const along = (r) => at(r, column) * (1 - east) + at(r, column + 1) * east;
    return along(row) * (1 - south) + along(row + 1) * south;
  }

  // An angle in degrees and decimal minutes, with its side.
  function angle(value, digits, sides) {
    const thousandths = Math.round(Math.abs(value) * 60000);
    const degrees = String(Math.floor(thousandths / 60000)).padStart(digits, "0");
    const minutes = ((thousandths % 60000) / 1000).toFixed(3).padStart(6, "0");
    return degrees + "\u00b0" + minutes + "'" + sides[value < 0 && thousandths > 0 ? 1 : 0];
  }

  // The place of a point of the map, as text; null outside of the mesh.
  function placeOf({ box, count, latitudes, longitudes }, { x, y }) {
    const [across, down] = [(x - box[0]) / box[2], (y - box[1]) / box[3]];
    if (Math.min(across, down) < 0 || Math.max(across, down) > 1) {
      return null;
    }
    const longitude = between(longitudes, count, across, down);
    const turned = longitude - 360 * Math.round(longitude / 360);
    return `${angle(between(latitudes, count, across, down), 2, "NS")} ${angle(turned, 3, "EW")}`;
  }

  // Takes the maps and the line that stand in the page now, if there is one.
  function begin() {
    const said = document.getElementById("where");
    if (!said) {
      return;
    }
    const [nodes, before] = [JSON.parse(said.dataset.nodes), said.textContent];
    const show = (event) => {
      const point = new DOMPoint(event.clientX, event.clientY).matrixTransform(event.currentTarget.getScreenCTM().inverse());
      said.textContent = placeOf(nodes, point) ?? said.textContent;
    };
    document.querySelectorAll(".figures .map").forEach((map) => {
      map.addEventListener("pointermove", show);
      map.addEventListener("pointerleave", () => { said.textContent = before; });
    });
  }

  return { begin };
}());

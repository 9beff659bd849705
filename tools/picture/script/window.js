  // After #100-180 only these events are shown: other sheets are hidden, and those at the edges are cropped.
  var from = 0, to = Infinity;

  function isInside(row) {
    return row[1] >= from && row[0] <= to;
  }

  function crop(sheet) {
    var tops = JSON.parse(sheet.dataset.rows);     // first event, last event, top; at the end the sheet's bottom
    var inside = tops.slice(0, -1).filter(isInside);
    sheet.style.display = inside.length ? "" : "none";
    if (!inside.length) return;
    var top = inside[0] === tops[0] ? +sheet.dataset.top : inside[0][2];
    var bottom = tops[tops.indexOf(inside[inside.length - 1]) + 1][2];
    parts(sheet).forEach(function (part) {
      part.setAttribute("viewBox", "0 " + top + " " + part.viewBox.baseVal.width + " " + (bottom - top));
      part.setAttribute("height", bottom - top);
    });
  }

  function hasRows() {
    return sheets.some(function (sheet) {
      return JSON.parse(sheet.dataset.rows).slice(0, -1).some(isInside);
    });
  }

  function showWindow() {
    var wanted = /^#(\d+)-(\d+)$/.exec(location.hash), row = /^#e\d+$/.test(location.hash);
    from = wanted ? +wanted[1] : 0;
    to = wanted ? +wanted[2] : Infinity;
    if (!hasRows()) {
      from = 0;
      to = Infinity;
      if (wanted) tell("Events " + wanted[1] + " to " + wanted[2] + " are not drawn on this page.");
      wanted = null;
    }
    sheets.forEach(crop);
    if (wanted) main.scrollIntoView();
    row = row && document.getElementById(location.hash.slice(1));
    if (row) show(row);
  }
  addEventListener("hashchange", showWindow);
  showWindow();


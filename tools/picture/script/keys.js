  // Up and down go from event to event, left and right from outage to outage.
  function next(rows, at, forward) {
    var there = rows.filter(function (row) {
      return number(row) >= from && number(row) <= to && (forward ? number(row) > at : number(row) < at);
    });
    return there[forward ? 0 : there.length - 1];
  }

  // The event from which a key goes on: that of the row that is lit, else the one before the first in sight.
  function here() {
    if (lit) return number(lit);
    var end = headEnd();
    var below = rows.find(function (row) {
      return row.getBoundingClientRect().top >= end;
    });
    return below ? number(below) - 1 : Infinity;
  }

  document.addEventListener("keydown", function (event) {
    var outages = {ArrowLeft: false, ArrowRight: true}, all = {ArrowUp: false, ArrowDown: true};
    var forward = event.key in outages ? outages[event.key] : all[event.key];
    if (forward === undefined || event.altKey || event.ctrlKey || event.metaKey || event.shiftKey) return;
    if (event.target.closest("input")) return;
    var some = event.key in outages ? Array.from(main.querySelectorAll(".row.bad")) : rows;
    var row = next(some, here(), forward);
    event.preventDefault();
    if (row) show(row);
  });


  // What is pointed at, or reached by the tab key, is told in a box, and its row is lit.
  var details = document.getElementById("details"), lit = null, quietUntil = 0;

  function tell(text) {
    details.hidden = !text;
    details.textContent = text || "";
  }

  function light(row) {
    if (lit) lit.classList.remove("on");
    lit = row;
    if (lit) lit.classList.add("on");
  }

  function titleOf(element) {
    return element ? element.querySelector("title").textContent : "";
  }

  function point(event) {
    if (Date.now() < quietUntil) return;     // the page moved, and not the mouse
    var told = event.target.closest(".mark, .frame"), row = event.target.closest("[data-e]");
    light(row && document.getElementById("e" + row.dataset.e));
    tell(titleOf(told));
  }
  document.addEventListener("mouseover", point);
  document.addEventListener("focusin", point);

  // A row is lit, told and brought into sight.
  function show(row) {
    quietUntil = Date.now() + 400;
    light(row);
    tell(titleOf(main.querySelector('.mark[data-e="' + number(row) + '"]')));
    row.scrollIntoView({block: "center", inline: "nearest"});
  }


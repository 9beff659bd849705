  // What is written in the box is found in the words and the details of events and frames; the rest fades.
  var search = document.getElementById("search"), found = document.getElementById("found"), hits = [];

  function pattern(said) {
    var numbered = /^(client|connection)s?\s*(\d+)$/i.exec(said);
    if (numbered) return new RegExp("\\b" + numbered[1] + "(s (\\d+, )*| )" + numbered[2] + "\\b", "i");
    return new RegExp("(?<!\\w)" + said.replace(/[.*+?^${}()|[\]\\]/g, "\\$&") + "(?!\\w)", "i");
  }

  function wordsOf(row) {
    return Array.from(row.querySelectorAll(".words"), function (line) {
      return line.textContent;
    }).join(" ");
  }

  function mark(elements, wanted, text) {
    elements.forEach(function (element) {
      element.classList.toggle("found", Boolean(wanted) && wanted.test(text(element)));
    });
  }

  function find() {
    var said = search.value.trim(), wanted = said && pattern(said), marks = main.querySelectorAll(".mark");
    mark(marks, wanted, titleOf);
    mark(main.querySelectorAll(".frame"), wanted, titleOf);
    mark(rows, wanted, wordsOf);
    marks.forEach(function (element) {
      if (element.matches(".found")) document.getElementById("e" + element.dataset.e).classList.add("found");
    });
    hits = rows.filter(function (row) {
      return row.matches(".found");
    });
    main.classList.toggle("searching", Boolean(said));
    found.textContent = said ? hits.length + " of " + rows.length + " rows; Enter goes to the next" : "";
  }
  search.addEventListener("input", find);

  search.addEventListener("keydown", function (event) {
    if (event.key !== "Enter" || !hits.length) return;
    var forward = !event.shiftKey, row = next(hits, here(), forward);
    show(row || hits[forward ? 0 : hits.length - 1]);
    found.textContent = hits.indexOf(lit) + 1 + " of " + hits.length + " rows that are found";
  });

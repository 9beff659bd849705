  // The picture: its sheets and rows, and which part of it is in sight.
  var main = document.querySelector("main"), head = main.querySelector(".head.top");
  var sheets = Array.from(main.querySelectorAll(".sheet")), rows = Array.from(main.querySelectorAll(".row"));

  function number(row) {
    return +row.dataset.e;
  }

  // The parts of a sheet that are cropped together.
  function parts(sheet) {
    return sheet.lastElementChild.querySelectorAll("svg");
  }

  // The height in the picture that is at a height of the screen.
  function heightAt(y) {
    var found = 0;
    sheets.forEach(function (sheet) {
      var part = sheet.lastElementChild.querySelector(".right"), box = part.getBoundingClientRect();
      if (box.height && box.top <= y) found = part.viewBox.baseVal.y + Math.min(y - box.top, box.height);
    });
    return found;
  }

  function headEnd() {
    return head.getBoundingClientRect().bottom;
  }


  // The head names who is in each column where the page stands; the strip has what is in sight.
  var lanes = JSON.parse(main.dataset.lanes), names = head.querySelectorAll(".lane");
  var strip = document.getElementById("strip"), seen = document.getElementById("seen"), waiting = false;

  function nameLanes(top, bottom) {
    lanes.forEach(function (stays, at) {
      if (!stays.length) return;
      var stay = stays.find(function (one) {
        return one[1] >= top && one[0] <= bottom;
      });
      names[at].textContent = stay ? stay[2] : "";
      names[at].classList.toggle("later", Boolean(stay) && stay[0] > top + 20);
    });
  }

  function follow() {
    var top = heightAt(headEnd()), bottom = heightAt(innerHeight);
    waiting = false;
    nameLanes(top, bottom);
    if (!strip) return;
    var scale = strip.viewBox.baseVal.height / strip.dataset.height;
    seen.setAttribute("y", scale * top);
    seen.setAttribute("height", Math.max(scale * (bottom - top), 2));
  }

  function followSoon() {
    if (!waiting) requestAnimationFrame(follow);
    waiting = true;
  }
  addEventListener("scroll", followSoon, {passive: true});
  addEventListener("resize", followSoon);
  addEventListener("hashchange", followSoon);
  follow();

  // A click beside the strip's parts goes to the row at this height.
  if (strip) strip.addEventListener("click", function (event) {
    if (event.target.closest("a")) return;
    var box = strip.getBoundingClientRect(), height = strip.dataset.height * (event.clientY - box.top) / box.height;
    var tops = [].concat.apply([], sheets.map(function (sheet) {
      return JSON.parse(sheet.dataset.rows).slice(0, -1);
    }));
    var after = tops.filter(function (one) {
      return one[2] >= height;
    })[0] || tops[tops.length - 1];
    location.hash = "e" + after[0];
  });


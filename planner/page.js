// Shows with a group's reason all that it rests on; without this script each stands behind its link.
function show() {
  for (const other of document.querySelectorAll(".why.on")) other.classList.remove("on");
  const waiting = [location.hash.slice(1)], seen = new Set();
  while (waiting.length) {
    const id = waiting.pop(), section = document.getElementById(id);
    if (!section || !section.matches(".why") || seen.has(id)) continue;
    seen.add(id);
    section.classList.add("on");
    for (const link of section.querySelectorAll("pre a")) waiting.push(link.getAttribute("href").slice(1));
  }
}
addEventListener("hashchange", show);
show();

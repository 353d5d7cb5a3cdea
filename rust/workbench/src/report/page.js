"use strict";
(function () {
  const root = document.documentElement;
  window.addEventListener("error", (event) => { root.dataset.fault = String(event.message); });
  const data = JSON.parse(document.getElementById("data").textContent);
  const map = data.map;
  const track = map.places * map.height + map.gap;
  const sectors = map.cylinders * map.heads * map.places;
  const reserved = map.reserved * map.heads * map.places;
  const behind = reserved + map.heads * map.places;
  const frame = document.getElementById("map");
  const svg = frame.querySelector("svg");
  const panel = document.getElementById("panel");
  const findSector = document.getElementById("find-sector");
  const findBlock = document.getElementById("find-block");
  let chosen = null;

  // Cylinder, head and place of a sector.
  function parts(sector) {
    const of = Math.floor(sector / map.places);
    return [Math.floor(of / map.heads), of % map.heads, sector % map.places];
  }

  // The upper left corner of a sector's cell.
  function corner(sector) {
    const [cylinder, head, place] = parts(sector);
    return [map.x + cylinder * map.width, map.y + head * track + place * map.height];
  }

  // The sector below the pointer, or null.
  function below(event) {
    const at = new DOMPoint(event.clientX, event.clientY).matrixTransform(svg.getScreenCTM().inverse());
    const cylinder = Math.floor((at.x - map.x) / map.width);
    const head = Math.floor((at.y - map.y) / track);
    const place = Math.floor((at.y - map.y - head * track) / map.height);
    const on = (number, most) => number >= 0 && number < most;
    if (!on(cylinder, map.cylinders) || !on(head, map.heads) || !on(place, map.places)) return null;
    return (cylinder * map.heads + head) * map.places + place;
  }

  // An element with this text.
  function made(name, text) {
    const element = document.createElement(name);
    if (text !== undefined) element.textContent = text;
    return element;
  }

  function linkTo(address, text) {
    const link = made("a", text);
    link.href = address;
    return link;
  }

  // Adds words to an element, with a link for each sector that they name.
  function say(element, words) {
    let from = 0;
    for (const found of words.matchAll(/sector (\d{1,4})\b/g)) {
      const end = found.index + found[0].length;
      element.append(words.slice(from, end - found[1].length), linkTo("#sector-" + found[1], found[1]));
      from = end;
    }
    element.append(words.slice(from));
    return element;
  }

  // The sector where a block lives.
  function home(block) {
    return block in data.moves ? data.moves[block] : block < reserved ? block : block + behind - reserved;
  }

  // What a sector is: as the data have it, or a home, a spare or a sector of no use that is as it was made.
  function sentence(sector) {
    if (sector in data.sentences) return data.sentences[sector];
    const place = sector - reserved;
    if (place >= 0 && sector < behind) {
      if (place < 32) {
        return "It is spare " + place + (data.known ? ", and holds no block." : "; no table says whether it is used.") + " It is readable.";
      }
      return place === 32 ? "The table is stored here. It is readable." : "It is reserved, and has no use. It is readable.";
    }
    const block = sector < reserved ? sector : sector - behind + reserved;
    return "It is the home of block " + block + (data.known ? ", which lives here." : "; no table says where that lives.") + " It is readable.";
  }

  // One thing that happened to a sector, or how many are left out.
  function event(entry) {
    const item = made("li");
    if (typeof entry === "number") {
      item.className = "gap";
      item.textContent = "… " + entry + (entry === 1 ? " command" : " commands") + " left out …";
      return item;
    }
    const [line, name, words, times] = entry;
    const often = times > 1 ? ", " + times + " times" : "";
    const shown = document.getElementById("line-" + line) !== null;
    const where = shown ? linkTo("#line-" + line, "line " + line) : "line " + line;
    item.append(where);
    return say(item, ", " + data.words[name] + often + ": " + data.words[words]);
  }

  // Shows a sector in the panel.
  function tell(sector) {
    const [cylinder, head, place] = parts(sector);
    const title = made("h3", "Sector " + sector);
    const where = say(made("p"), "Cylinder " + cylinder + ", head " + head + ", place " + place + ". " + sentence(sector));
    const story = data.stories[sector];
    if (story === undefined) {
      panel.replaceChildren(title, where, made("p", "It was not met in the run."));
    } else {
      const list = made("ul");
      list.append(...story.slice(1).map(event));
      const counts = data.words[story[0]];
      panel.replaceChildren(title, where, made("p", counts === "" ? "" : "In the run: " + counts + "."), list);
    }
    panel.dataset.sector = sector;
  }

  // Puts a frame around a sector on the map.
  function surround(id, sector) {
    const rect = document.getElementById(id);
    const [x, y] = corner(sector);
    rect.setAttribute("x", x - 2);
    rect.setAttribute("y", y - 2);
    rect.setAttribute("width", map.width + 3);
    rect.setAttribute("height", map.height + 3);
  }

  // Chooses a sector, and scrolls the map to it.
  function choose(sector) {
    chosen = sector;
    surround("chosen", sector);
    tell(sector);
    findSector.value = sector;
    const scale = svg.getBoundingClientRect().width / svg.viewBox.baseVal.width;
    const x = corner(sector)[0] * scale;
    if (x < frame.scrollLeft + 20 || x > frame.scrollLeft + frame.clientWidth - 20) {
      frame.scrollLeft = x - frame.clientWidth / 2;
    }
  }

  // Chooses a sector, and keeps it in the page's address.
  function go(sector) {
    choose(sector);
    history.replaceState(null, "", "#sector-" + sector);
  }

  // The sector that an address names, or null.
  function named(address) {
    const found = /^#sector-(\d{1,4})$/.exec(address);
    return found !== null && Number(found[1]) < sectors ? Number(found[1]) : null;
  }

  // Shows what the page's address names.
  function follow() {
    const sector = named(location.hash);
    if (sector !== null) {
      choose(sector);
      frame.scrollIntoView({ block: "start" });
      return;
    }
    const target = location.hash.length > 1 ? document.getElementById(location.hash.slice(1)) : null;
    const folded = target === null ? null : target.closest("details");
    if (folded !== null) {
      folded.open = true;
      target.scrollIntoView();
    }
  }

  // The next sector of note from the chosen one on, in this direction.
  function ofNote(direction) {
    const from = chosen === null ? (direction > 0 ? -1 : sectors) : chosen;
    const rest = data.noted.filter((sector) => (sector - from) * direction > 0);
    if (rest.length > 0) go(direction > 0 ? rest[0] : rest[rest.length - 1]);
  }

  svg.addEventListener("pointermove", (event) => {
    const sector = below(event);
    if (sector === null) return;
    surround("pointed", sector);
    tell(sector);
  });
  svg.addEventListener("pointerleave", () => {
    document.getElementById("pointed").setAttribute("width", 0);
    if (chosen !== null) tell(chosen);
  });
  svg.addEventListener("click", (event) => {
    const sector = below(event);
    if (sector !== null) go(sector);
  });
  frame.addEventListener("keydown", (event) => {
    const cylinder = map.heads * map.places;
    const steps = { ArrowLeft: -cylinder, ArrowRight: cylinder, ArrowUp: -1, ArrowDown: 1 };
    if (!(event.key in steps)) return;
    event.preventDefault();
    const next = chosen === null ? 0 : chosen + steps[event.key];
    if (next >= 0 && next < sectors) go(next);
  });
  document.addEventListener("click", (event) => {
    const link = event.target.closest("a[href^='#sector-']");
    const sector = link === null ? null : named(link.getAttribute("href"));
    if (sector === null) return;
    event.preventDefault();
    go(sector);
    frame.scrollIntoView({ block: "start" });
  });
  document.addEventListener("focusin", (event) => {
    const story = event.target.closest("details.story > summary");
    const link = event.target.closest(".spares a");
    const address = link !== null ? link.getAttribute("href") : story !== null ? "#" + story.parentElement.id : "";
    const sector = named(address);
    if (sector !== null) choose(sector);
  });
  document.getElementById("finder").addEventListener("submit", (event) => {
    event.preventDefault();
    const block = findBlock.value;
    const sector = block !== "" ? home(Number(block)) : findSector.value === "" ? null : Number(findSector.value);
    findBlock.value = "";
    if (sector !== null && sector < sectors) go(sector);
  });
  document.getElementById("next").addEventListener("click", () => ofNote(1));
  document.getElementById("before").addEventListener("click", () => ofNote(-1));
  window.addEventListener("hashchange", follow);

  // On paper all that is folded is open, unless that is very much.
  let opened = [];
  window.addEventListener("beforeprint", () => {
    const folded = [...document.querySelectorAll("details:not([open])")];
    opened = folded.length > 150 ? [] : folded;
    for (const folded of opened) folded.open = true;
  });
  window.addEventListener("afterprint", () => {
    for (const folded of opened) folded.open = false;
  });

  root.classList.add("scripted");
  follow();
  root.dataset.ran = "yes";
})();

"use strict";
(() => {
  const byId = (id) => document.getElementById(id);
  const data = JSON.parse(byId("data").textContent);
  const { ports, addresses, infos, reasons, sets, words, columns: col } = data;
  // What ports are called on their switch, where that is known.
  const called = data.names || ports;
  const interfaces = data.interfaces || ports;
  const total = col.port.length;
  const filters = { port: byId("f-port"), vlan: byId("f-vlan"), what: byId("f-what"), from: byId("f-from"), to: byId("f-to"), word: byId("f-word") };
  const whats = ["left", "nowhere", "ignored"];
  const whatWords = ["left", "went nowhere", "ignored"];
  let found = [];
  let page = 0;

  // The look: what the system says, or what the reader chose here.
  const root = document.documentElement;
  const keep = (look) => { try { look ? localStorage.setItem("exbr-look", look) : localStorage.removeItem("exbr-look"); } catch { /* not kept then */ } };
  const kept = () => { try { return localStorage.getItem("exbr-look"); } catch { return null; } };
  const isDark = () => (root.dataset.look || (matchMedia("(prefers-color-scheme: dark)").matches ? "dark" : "light")) === "dark";
  const lookButton = byId("look");
  const sayLook = () => { lookButton.textContent = isDark() ? "Light look" : "Dark look"; };
  if (kept()) root.dataset.look = kept();
  sayLook();
  lookButton.addEventListener("click", () => { root.dataset.look = isDark() ? "light" : "dark"; keep(root.dataset.look); sayLook(); });
  matchMedia("(prefers-color-scheme: dark)").addEventListener("change", sayLook);

  const element = (name, attributes, ...content) => {
    const it = document.createElement(name);
    for (const [key, value] of Object.entries(attributes || {})) if (value !== null) it.setAttribute(key, value);
    it.append(...content);
    return it;
  };
  const number = (value) => value.toLocaleString("en");
  const second = (row) => (col.time[row] / 1e6).toFixed(6).replace(/0{1,5}$/, "");
  const fill = (template, values) => template.replace(/\{(\w+)\}/g, (all, key) => (key in values ? values[key] : all));

  // Where a frame left: the ports of its set but the one from which it came.
  const targets = (row) => (col.set[row] < 0 ? [] : sets[col.set[row]].map((it) => [it >> 1, it & 1]).filter((it) => it[0] !== col.port[row]));
  const grouped = (them) => {
    const out = [];
    for (const [port, tagged] of them) {
      const [, head, at] = /^(.*?)(\d+)$/.exec(interfaces[port]) || [null, interfaces[port], ""];
      const last = out[out.length - 1];
      if (at && last && last.head === head && last.tagged === tagged && last.end + 1 === +at) last.end = +at;
      else out.push({ head, tagged, begin: at && +at, end: at && +at });
    }
    return out.map((it) => it.head + it.begin + (it.end > it.begin ? `-${it.end}` : "") + (it.tagged ? " (tag)" : ""));
  };
  const where = (row) => {
    const them = targets(row);
    if (!them.length) return "";
    const parts = grouped(them);
    return parts.length > 6 ? `${parts.slice(0, 5).join(", ")} .. ${number(them.length)} ports` : parts.join(", ");
  };
  const why = (row) => {
    const values = { port: called[col.port[row]], vid: col.vid[row], destination: addresses[col.destination[row]], at: called[col.at[row]],
      of: col.of[row], age: col.age[row] };
    // The first is the cause by which the filter finds it; the others are sentences.
    const told = reasons[col.reason[row]].slice(1).map((it) => fill(words[it], values));
    const left = grouped(targets(row));
    return left.length ? [...told, `left ${left.join(", ")}`] : told;
  };

  const opened = new Set();
  const close = (tr, button) => {
    if (tr.nextSibling && tr.nextSibling.classList.contains("why")) tr.nextSibling.remove();
    tr.classList.remove("open");
    button.setAttribute("aria-expanded", "false");
  };
  const toggle = (row, tr, button) => {
    if (opened.delete(row)) { close(tr, button); return; }
    opened.add(row);
    tr.classList.add("open");
    button.setAttribute("aria-expanded", "true");
    const list = element("ol", null, ...why(row).map((it) => element("li", null, it)));
    const head = `Frame ${col.number[row]} of ${called[col.port[row]]}, line ${col.line[row]} of the journal`;
    const wrong = data.disagree[row];
    tr.after(element("tr", { class: "why" }, element("td", { colspan: 10 }, element("strong", null, head), list,
      wrong ? element("p", { class: "disagree" }, wrong) : "")));
  };
  const rowOf = (row) => {
    const what = col.what[row];
    const button = element("button", { type: "button", "aria-expanded": "false",
      "aria-label": `Why: frame ${col.number[row]} of ${called[col.port[row]]}` }, "why");
    const cell = (kind, of, ...content) => element("td", { class: kind, "data-of": of }, ...content);
    const tr = element("tr", null,
      cell("n", "second", second(row)),
      cell(null, "at", `${called[col.port[row]]} #${col.number[row]}`),
      cell("n", "VLAN", col.vid[row] ? String(col.vid[row]) : "–"),
      cell(null, "from", element("code", null, addresses[col.source[row]] || "–")),
      cell(null, "to", element("code", null, addresses[col.destination[row]] || "–")),
      cell("content", null, infos[col.info[row]]),
      cell("n", "bytes", number(col.length[row])),
      cell(`what ${whats[what]}`, null, whatWords[what]),
      cell(null, what ? null : "at", where(row)),
      cell("last", null, button));
    tr.addEventListener("click", (event) => { if (event.target !== button && !getSelection().toString()) toggle(row, tr, button); });
    button.addEventListener("click", () => toggle(row, tr, button));
    return tr;
  };

  // The words of the filter are looked for in the few different texts, not in each row.
  const hits = (texts, word) => { const out = new Uint8Array(texts.length); texts.forEach((it, at) => { if (it.toLowerCase().includes(word)) out[at] = 1; }); return out; };
  const select = () => {
    const word = filters.word.value.trim().toLowerCase();
    const port = filters.port.value === "" ? -1 : +filters.port.value;
    const vlan = filters.vlan.value === "" ? -1 : +filters.vlan.value;
    const [what, reason] = filters.what.value.split(":");
    const kind = whats.indexOf(what);
    const from = filters.from.value === "" ? -Infinity : +filters.from.value * 1e6;
    const to = filters.to.value === "" ? Infinity : +filters.to.value * 1e6;
    const inAddress = word && hits(addresses, word.replaceAll("-", ":"));
    const inInfo = word && hits(infos, word);
    found = [];
    for (let row = 0; row < total; row++) {
      if (port >= 0 && col.port[row] !== port) continue;
      if (vlan >= 0 && col.vid[row] !== vlan) continue;
      if (kind >= 0 && col.what[row] !== kind) continue;
      if (reason !== undefined && reasons[col.reason[row]][0] !== reason) continue;
      if (col.time[row] < from || col.time[row] >= to) continue;
      if (word && !inInfo[col.info[row]] && !inAddress[col.source[row]] && !inAddress[col.destination[row]]) continue;
      found.push(row);
    }
  };
  const size = () => +byId("size").value;
  const show = () => {
    const pages = Math.max(1, Math.ceil(found.length / size()));
    page = Math.min(Math.max(page, 0), pages - 1);
    opened.clear();
    const begin = page * size();
    const shown = found.slice(begin, begin + size());
    byId("rows").replaceChildren(...shown.map(rowOf));
    const isAll = found.length === total;
    byId("where").textContent = found.length ? `${number(begin + 1)} to ${number(begin + shown.length)} of ${number(found.length)}${isAll ? "" : " that fit"}`
      : "no frame fits";
    for (const it of document.querySelectorAll(".pager [data-go]")) {
      const go = it.dataset.go;
      it.disabled = (go === "first" || go === "back") ? page === 0 : page >= pages - 1;
    }
  };
  const mark = () => {
    const name = filters.port.value === "" ? null : ports[+filters.port.value];
    for (const it of document.querySelectorAll("#tree .port")) {
      const is = it.dataset.port === name;
      it.classList.toggle("chosen", is);
      it.setAttribute("aria-pressed", String(is));
    }
    for (const it of document.querySelectorAll("#time .span")) {
      it.classList.toggle("chosen", filters.from.value === it.dataset.from && filters.to.value === it.dataset.to);
    }
  };
  const refresh = () => { page = 0; select(); show(); mark(); };
  const clear = () => { for (const it of Object.values(filters)) it.value = ""; };
  const focusOn = (settings) => {
    clear();
    for (const [key, value] of Object.entries(settings)) if (filters[key]) filters[key].value = value;
    refresh();
    byId("frames").scrollIntoView({ block: "start" });
    byId("frames-head").focus({ preventScroll: true });
  };

  for (const it of Object.values(filters)) it.addEventListener("input", refresh);
  byId("clear").addEventListener("click", () => { clear(); refresh(); });
  byId("size").addEventListener("change", () => { page = 0; show(); });
  byId("filter").addEventListener("submit", (event) => event.preventDefault());
  for (const it of document.querySelectorAll(".pager [data-go]")) {
    it.addEventListener("click", () => {
      const pages = Math.ceil(found.length / size());
      page = { first: 0, back: page - 1, next: page + 1, last: pages - 1 }[it.dataset.go];
      show();
    });
  }

  // In a picture one part is reached by Tab; arrows go on from there to the one that is nearest in that direction.
  const middle = (it) => { const box = it.getBoundingClientRect(); return [box.x + box.width / 2, box.y + box.height / 2]; };
  const nearest = (parts, from, across, down) => {
    const [x, y] = middle(from);
    let best = null, least = Infinity;
    for (const it of parts) {
      const [dx, dy] = middle(it).map((at, axis) => at - [x, y][axis]);
      const ahead = dx * across + dy * down;
      if (it === from || ahead <= 1) continue;
      const cost = ahead + 3 * Math.abs(across ? dy : dx);
      if (cost < least) { least = cost; best = it; }
    }
    return best;
  };
  const arrows = { ArrowRight: [1, 0], ArrowLeft: [-1, 0], ArrowDown: [0, 1], ArrowUp: [0, -1] };
  const walkable = (picture, kind, act) => {
    const parts = picture ? [...picture.querySelectorAll(kind)] : [];
    if (parts.length) parts[0].setAttribute("tabindex", "0");
    const go = (to) => {
      for (const it of parts) it.setAttribute("tabindex", "-1");
      to.setAttribute("tabindex", "0");
      to.focus();
    };
    for (const it of parts) {
      it.addEventListener("click", () => act(it));
      it.addEventListener("keydown", (event) => {
        const to = event.key in arrows ? nearest(parts, it, ...arrows[event.key])
          : { Home: parts[0], End: parts[parts.length - 1] }[event.key];
        if (event.key === "Enter" || event.key === " ") act(it);
        else if (to) go(to);
        else if (!(event.key in arrows)) return;
        event.preventDefault();
      });
    }
  };
  walkable(byId("tree"), ".port", (it) => focusOn({ port: String(ports.indexOf(it.dataset.port)) }));
  walkable(byId("time"), ".span", (it) => focusOn({ from: it.dataset.from, to: it.dataset.to }));
  document.addEventListener("click", (event) => {
    const link = event.target.closest("[data-frames]");
    if (!link) return;
    event.preventDefault();
    focusOn(JSON.parse(link.dataset.frames));
  });
  refresh();
})();

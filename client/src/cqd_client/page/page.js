"use strict";
// Lists the duplicates from the page's data, filters and orders them, and draws the lines of one when it is opened. Only the
// rows that are looked at are in the document, so thousands of duplicates cost nothing. All texts go into the page as text
// nodes, so nothing in a name or a source can become an element.
(() => {
  const byId = (id) => document.getElementById(id);
  const list = byId("groups");
  if (!list) return;
  const index = JSON.parse(byId("index").textContent);
  const PLACE = 5;
  const ROWS = 20, NAMED_PLACES = 3;
  // Of a longer duplicate the first lines are drawn, and the others when they are asked for.
  const ALL_DRAWN = 40, FIRST_DRAWN = 28;
  const KEYWORDS = new Set(("abstract assert auto bool boolean break byte case catch chan char class const continue default " +
    "defer do double else enum extends extern fallthrough final finally float for func go goto if implements import inline " +
    "instanceof int interface long map native new package private protected public range return select short signed sizeof " +
    "static strictfp struct super switch synchronized this throw throws transient try type typedef union unsigned var void " +
    "volatile while true false null").split(" "));
  const KEYWORDS_OF_JS = new Set(("async await break case catch class const continue debugger default delete do else enum export " +
    "extends false finally for function if import in instanceof let new null return static super switch this throw true try " +
    "typeof var void while with yield abstract as declare implements interface keyof namespace private protected public readonly type").split(" "));
  const HIDDEN = /[\p{Cf}\p{Co}\p{Cs}\p{Zl}\p{Zp}]|(?!\t)\p{Cc}/gu;
  let allTexts = null;

  // What has no shape of its own, or reorders the characters beside it, is shown by its number.
  const visible = (text) => text.replace(HIDDEN, (hidden) => "\\u{" + hidden.codePointAt(0).toString(16) + "}");
  const number = (value) => value.toLocaleString("en");
  const counted = (count, noun) => number(count) + " " + noun + (count === 1 ? "" : "s");

  function element(name, className, text) {
    const made = document.createElement(name);
    if (className) made.className = className;
    if (text !== undefined) made.textContent = text;
    return made;
  }

  // ---------------------------------------------------------------------------------------------------- data

  // The places of a group, or the first of them.
  function places(group, most) {
    const flat = index.groups[group];
    const end = Math.min(flat.length, 1 + (most || Infinity) * PLACE);
    const found = [];
    for (let at = 1; at < end; at += PLACE) {
      found.push({ file: flat[at], path: index.paths[flat[at]], first: flat[at + 1], last: flat[at + 2], column: flat[at + 3],
        end: flat[at + 4] });
    }
    return found;
  }

  function digit(text, at) {
    const code = text.charCodeAt(at);
    return code < 0xA1 ? code - 0x3D : code - 0xA1 + 31;
  }

  // The tokens of a line as [from, to, whether it began on an earlier line].
  function decoded(marks) {
    const found = [];
    let column = 0;
    for (let at = 0; at < marks.length; at += 2) {
      if (marks[at] === "!") {
        column = digit(marks, at + 1);
        found.push([0, column, true]);
      } else {
        const from = column + digit(marks, at);
        column = from + digit(marks, at + 1);
        found.push([from, column, false]);
      }
    }
    return found;
  }

  // The lines of a place, with the tokens of its run on each and how many of them are on lines before.
  function linesOf(place) {
    allTexts = allTexts || JSON.parse(byId("texts").textContent);
    const kept = allTexts[place.file];
    let part = kept.length - 3;
    while (part >= 0 && kept[part] > place.first) part -= 3;
    if (part < 0) return null;
    const from = place.first - kept[part];
    const texts = kept[part + 1].split("\n").slice(from, from + place.last - place.first + 1);
    if (!texts.length) return null;
    const isMarked = place.column >= 0 && kept[part + 2] !== "";
    const isJs = /\.([cm]?[jt]s|jsx)$/.test(place.path);
    const marks = isMarked ? kept[part + 2].split("\n").slice(from, from + texts.length) : [];
    const indents = texts.filter((text) => text.trim()).map((text) => text.match(/^[ \t]*/)[0].length);
    const indent = indents.length ? Math.min(...indents) : 0;
    let before = 0;
    return texts.map((text, position) => {
      const at = place.first + position;
      let tokens = isMarked ? decoded(marks[position]) : [];
      if (at === place.first) tokens = tokens.filter((token) => token[0] >= place.column && !token[2]);
      if (at === place.last) tokens = tokens.filter((token) => token[1] <= place.end);
      const count = tokens.filter((token) => !token[2]).length;
      const line = { at, text, tokens, before, count, isMarked, isJs, indent,
        from: at === place.first && isMarked ? place.column : 0,
        to: at === place.last && isMarked ? place.end : text.length };
      before += count;
      return line;
    });
  }

  // Whether two lines are shown side by side: both without tokens of the run, or with at least half of one's in the other.
  function isPair(a, b) {
    if (!a.isMarked || !b.isMarked) return true;
    if (!a.count || !b.count) return !a.count && !b.count && a.before === b.before;
    const shared = Math.min(a.before + a.count, b.before + b.count) - Math.max(a.before, b.before);
    return shared * 2 >= Math.min(a.count, b.count);
  }

  // The lines of two places in pairs. A line without a partner stands alone.
  function aligned(left, right) {
    const pairs = [];
    let i = 0, j = 0;
    while (i < left.length || j < right.length) {
      const a = left[i], b = right[j];
      if (a && b && isPair(a, b)) {
        pairs.push([a, b]); i++; j++;
      } else if (!b || (a && (a.before < b.before || (a.before === b.before && !a.count)))) {
        pairs.push([a, null]); i++;
      } else {
        pairs.push([null, b]); j++;
      }
    }
    return pairs;
  }

  function spellings(lines) {
    const found = [];
    for (const line of lines) for (const [from, to, isLater] of line.tokens) if (!isLater) found.push(line.text.slice(from, to));
    return found;
  }

  // -------------------------------------------------------------------------------------- the lines of a group

  // Literals, with regular expressions and the later parts of a template in JavaScript, and keywords.
  function kind(spelling, isJs) {
    if (/^["'`0-9]/.test(spelling) || (isJs && /^(\/.+\/|\}.)/s.test(spelling))) return "s";
    return (isJs ? KEYWORDS_OF_JS : KEYWORDS).has(spelling) ? "k" : "";
  }

  // A line with its tokens, those marked that are spelled otherwise in the other place's run.
  function drawn(line, others) {
    if (!line) return element("span", "l fill");
    const made = element("span", "l");
    made.dataset.n = line.at;
    let at = Math.min(line.indent, line.text.length), token = line.before;
    const plain = (to) => {
      for (const [end, name] of [[Math.min(to, line.from), "o"], [Math.min(to, line.to), line.isMarked ? "c" : ""], [to, "o"]]) {
        if (end > at) {
          const text = visible(line.text.slice(at, end));
          made.append(name && text.trim() ? element("span", name, text) : text);
          at = end;
        }
      }
    };
    for (const [from, to, isLater] of line.tokens) {
      plain(from);
      const text = line.text.slice(at, to);
      const differs = !isLater && others && others[token] !== undefined && others[token] !== line.text.slice(from, to);
      const name = isLater ? "s" : kind(text, line.isJs);
      if (differs && text) made.append(element("mark", name, visible(text)));
      else made.append(name ? element("span", name, visible(text)) : visible(text));
      at = Math.max(at, to);
      if (!isLater) token++;
    }
    plain(line.text.length);
    return made;
  }

  function name(place) {
    return visible(place.path) + ":" + place.first + (place.first === place.last ? "" : "\u2013" + place.last);
  }

  function head(found, chosen, choose) {
    const made = element("div", "file");
    if (found.length === 2) {
      made.textContent = name(found[chosen]);
      return made;
    }
    const select = element("select");
    select.setAttribute("aria-label", "Place to compare");
    found.forEach((place, at) => select.append(new Option((at + 1) + " of " + found.length + ": " + name(place), at)));
    select.value = chosen;
    select.addEventListener("change", () => choose(Number(select.value)));
    made.append(select);
    return made;
  }

  function side(place, header, lines, ordered, others) {
    const made = element("section");
    made.setAttribute("aria-label", name(place));
    made.append(header);
    if (!lines) {
      made.append(element("p", "note", "The text of this file is not on the page."));
      return made;
    }
    const pre = element("pre");
    pre.tabIndex = 0;
    pre.setAttribute("aria-label", "Lines of " + name(place));
    const box = element("span", "rows");
    for (const line of ordered) box.append(drawn(line, others));
    pre.append(box);
    made.append(pre);
    const left = place.last - place.first + 1 - lines.length;
    if (left > 0) made.append(element("p", "note", counted(left, "more line") + ", not on the page"));
    return made;
  }

  function rest(count, draw) {
    const button = element("button", "", "Show " + counted(count, "more line"));
    button.type = "button";
    button.addEventListener("click", draw);
    const box = element("p", "note");
    box.append(button);
    return box;
  }

  // Two places of a group side by side.
  function draw(details, group, chosen, isWhole) {
    const found = places(group);
    const lines = chosen.map((place) => linesOf(found[place]));
    let pairs = lines[0] && lines[1] ? aligned(lines[0], lines[1]) : null;
    const height = pairs ? pairs.length : Math.max(...lines.map((of) => (of ? of.length : 0)));
    const isCut = !isWhole && height > ALL_DRAWN;
    const most = isCut ? FIRST_DRAWN : height;
    if (pairs) pairs = pairs.slice(0, most);
    const words = lines.map((of) => of && spellings(of));
    const code = element("div", "code");
    chosen.forEach((place, at) => {
      const choose = (other) => {
        draw(details, group, at ? [chosen[0], other] : [other, chosen[1]], isWhole);
        details.querySelectorAll(".code select")[at].focus();
      };
      code.append(side(found[place], head(found, place, choose), lines[at],
        pairs ? pairs.map((pair) => pair[at]) : lines[at] && lines[at].slice(0, most), words[1 - at]));
    });
    if (isCut) {
      code.append(rest(height - most, () => {
        draw(details, group, chosen, true);
        details.querySelector(".code pre").focus({ preventScroll: true });
      }));
    }
    const old = details.querySelector(".code");
    if (old) old.replaceWith(code);
    else details.append(code);
  }

  // ----------------------------------------------------------------------------------------- the rows of groups

  const rows = [];

  function placeName(place) {
    const slash = place.path.lastIndexOf("/") + 1;
    const made = element("span", "place");
    made.append(element("span", "folder", visible(place.path.slice(0, slash))), element("wbr"), element("b", "", visible(place.path.slice(slash))),
      element("span", "lines", ":" + place.first + (place.first === place.last ? "" : "\u2013" + place.last)));
    return made;
  }

  function row(group) {
    if (rows[group]) return rows[group];
    const found = places(group, NAMED_PLACES);
    const others = (index.groups[group].length - 1) / PLACE - found.length;
    const made = element("li");
    made.id = "g" + (group + 1);
    const anchor = element("a", "anchor", group + 1);
    anchor.href = "#g" + (group + 1);
    anchor.setAttribute("aria-label", "Link to duplicate " + (group + 1));
    const size = element("span", "size");
    size.append(element("b", "", number(index.groups[group][0])), " tokens");
    const where = element("span", "where");
    where.append(...found.map(placeName));
    if (others) where.append(element("span", "more", "and " + counted(others, "more place")));
    const summary = element("summary");
    summary.append(size, " ", element("span", "extent", counted(found[0].last - found[0].first + 1, "line")), " ", where);
    const details = element("details");
    details.append(summary);
    // A click draws before the element opens, so that it never flashes empty; `toggle` comes for all other ways to open it.
    const open = () => { if (!details.querySelector(".code")) draw(details, group, [0, 1], false); };
    summary.addEventListener("click", open);
    details.addEventListener("toggle", () => { if (details.open) open(); });
    made.append(anchor, details);
    rows[group] = made;
    return made;
  }

  // -------------------------------------------------------------------------------------- search, folder, order

  const query = byId("query"), folder = byId("folder"), order = byId("order"), count = byId("count");
  const before = byId("before"), after = byId("after");
  const lower = index.paths.map((path) => path.toLowerCase());
  const filesOf = index.groups.map((flat) => {
    const found = [];
    for (let at = 1; at < flat.length; at += PLACE) found.push(flat[at]);
    return found;
  });
  const ORDERS = {
    size: (a, b) => a - b,
    places: (a, b) => filesOf[b].length - filesOf[a].length || a - b,
    path: (a, b) => filesOf[a][0] - filesOf[b][0] || index.groups[a][2] - index.groups[b][2] || a - b,
  };
  let ordered = index.groups.map((_, group) => group);
  let matching = ordered, from = 0, to = 0;

  function buttons() {
    before.hidden = from === 0;
    before.textContent = "Show " + number(Math.min(ROWS, from)) + " of the " + number(from) + " before";
    after.hidden = to === matching.length;
    after.textContent = "Show " + number(Math.min(ROWS, matching.length - to)) + " of the " + number(matching.length - to) + " left";
  }

  function show(first) {
    from = first;
    to = Math.min(first + ROWS, matching.length);
    list.replaceChildren(...matching.slice(from, to).map(row));
    buttons();
  }

  function showAfter() {
    const end = Math.min(to + ROWS, matching.length);
    list.append(...matching.slice(to, end).map(row));
    to = end;
    buttons();
  }

  function showBefore() {
    const first = Math.max(0, from - ROWS);
    list.prepend(...matching.slice(first, from).map(row));
    from = first;
    buttons();
  }

  function filter() {
    const text = query.value.trim().toLowerCase();
    const inside = folder.value ? folder.value + "/" : "";
    const fits = index.paths.map((path, file) => path.startsWith(inside) && lower[file].includes(text));
    matching = text || inside ? ordered.filter((group) => filesOf[group].some((file) => fits[file])) : ordered;
    count.textContent = matching.length === ordered.length ? "" : number(matching.length) + " of " + number(ordered.length);
    for (const cell of document.querySelectorAll(".map a")) {
      if (folder.value && cell.dataset.folder === folder.value) cell.setAttribute("aria-current", "true");
      else cell.removeAttribute("aria-current");
    }
    show(0);
  }

  function sort() {
    ordered = ordered.slice().sort(ORDERS[order.value]);
    filter();
  }

  function goTo(text, inside) {
    query.value = text;
    folder.value = inside;
    filter();
    byId("duplicates").scrollIntoView();
    byId("duplicates").focus({ preventScroll: true });
  }

  // Shows the group that the address names.
  function target() {
    const group = /^#g[1-9]\d*$/.test(location.hash) ? Number(location.hash.slice(2)) - 1 : -1;
    if (!index.groups[group]) return;
    if (!matching.includes(group)) {
      query.value = folder.value = "";
      filter();
    }
    const position = matching.indexOf(group);
    if (position < from || position >= to) show(Math.max(0, position - 2));
    for (const marked of list.querySelectorAll(".anchor[aria-current]")) marked.removeAttribute("aria-current");
    row(group).querySelector(".anchor").setAttribute("aria-current", "true");
    row(group).querySelector("details").open = true;
    row(group).scrollIntoView();
  }

  document.addEventListener("click", (event) => {
    const link = event.target.closest("a[data-folder], a[data-file]");
    if (!link) return;
    event.preventDefault();
    if (link.dataset.file !== undefined) goTo(link.dataset.file, "");
    else goTo("", link.hasAttribute("aria-current") ? "" : link.dataset.folder);
  });
  query.addEventListener("input", filter);
  folder.addEventListener("change", filter);
  order.addEventListener("change", sort);
  query.form.addEventListener("submit", (event) => event.preventDefault());
  before.addEventListener("click", showBefore);
  after.addEventListener("click", showAfter);
  new IntersectionObserver((seen) => { if (seen[seen.length - 1].isIntersecting && !after.hidden) showAfter(); },
    { rootMargin: "600px" }).observe(after);
  window.addEventListener("hashchange", target);
  query.form.hidden = false;
  query.value = folder.value = "";
  order.value = "size";
  filter();
  row(0).querySelector("details").open = true;
  target();
})();

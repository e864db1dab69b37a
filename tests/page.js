// What is asked of every page that is loaded. Its value is what is wrong, a line for each fault; empty where all is right.
(() => {
    const faults = [];
    const all = (selector) => [...document.querySelectorAll(selector)];
    const ask = (is_right, fault) => is_right || faults.push(fault);
    const tag = (element) => element.outerHTML.slice(0, 80);

    // Only these elements and attributes: whatever a file holds, it makes no other ones.
    const elements = "html head meta title style body a header p h1 h2 h3 span nav ul li main section dl div dt dd table " +
        "caption thead tbody tr th td pre code del ins mark abbr b i bdi footer";
    const attributes = "lang charset http-equiv content name class href id aria-hidden aria-label aria-labelledby role " +
        "tabindex scope title";
    for (const element of all("*")) {
        ask(elements.split(" ").includes(element.localName), "an element that has no place here: " + tag(element));
        for (const { name } of element.attributes) {
            ask(attributes.split(" ").includes(name), "an attribute that has no place here: " + tag(element));
        }
    }
    const policy = document.querySelector("meta[http-equiv=Content-Security-Policy]").content;
    ask(/^default-src 'none'; style-src 'sha256-[^' ]+'; base-uri 'none'; form-action 'none'$/.test(policy), policy);
    ask(performance.getEntriesByType("resource").length === 0, "something was loaded");
    ask(document.styleSheets.length === 1 && document.styleSheets[0].cssRules.length > 20, "the style is not in force");

    // For screen readers: language, headings, landmarks, tables.
    ask(/^(en|de)$/.test(document.documentElement.lang), "the language is not named");
    const levels = all("h1, h2, h3, h4, h5, h6").map((heading) => Number(heading.localName[1]));
    ask(levels[0] === 1 && levels.filter((level) => level === 1).length === 1, "not one h1, in front");
    ask(levels.every((level, i) => i === 0 || level <= levels[i - 1] + 1), "a heading leaves out a level: " + levels);
    for (const landmark of ["header", "main", "footer", "body > nav"]) {
        ask(all(landmark).length === 1, "not one " + landmark);
    }
    ask(all("nav").every((nav) => nav.ariaLabel), "a nav without a name");
    for (const section of all("section")) {
        const heading = document.getElementById(section.getAttribute("aria-labelledby"));
        ask(heading && heading.localName === "h2" && section.contains(heading), "a section without heading: " + tag(section));
    }
    for (const table of all("table")) {
        ask(table.caption && table.caption.textContent.trim(), "a table without a caption: " + tag(table));
        ask(table.tHead && table.tHead.rows.length === 1, "a table without heads: " + tag(table));
        const widths = new Set([...table.rows].map((row) => row.cells.length));
        ask(widths.size === 1, "a table with rows of different lengths: " + tag(table));
    }
    ask(all("thead th").every((head) => head.scope === "col"), "a head of no column");
    ask(all("tbody tr > :first-child").every((cell) => cell.matches("th[scope=row]")), "a row without a head");
    ask(all("tbody th, thead th").every((head) => head.textContent.trim()), "an empty head");

    // For the keyboard: links lead to places of the page; what scrolls can be reached, and has a name.
    const ids = all("[id]").map((element) => element.id);
    ask(new Set(ids).size === ids.length, "two elements of one id");
    for (const link of all("a")) {
        const target = link.getAttribute("href");
        ask(target[0] === "#" && ids.includes(target.slice(1)), "a link elsewhere: " + tag(link));
    }
    ask(all("[tabindex]").every((element) => ["0", "-1"].includes(element.getAttribute("tabindex"))), "an order of its own");
    ask(all("[tabindex='0']").every((element) => element.role === "group" && element.ariaLabel), "a stop without a name");
    for (const element of all("body, body *")) {
        const is_wide = element.scrollWidth > element.clientWidth + 1;
        const scrolls = is_wide && /auto|scroll/.test(getComputedStyle(element).overflowX);
        ask(!scrolls || element.tabIndex === 0, "the keyboard cannot scroll " + tag(element));
    }

    // For the eye: nothing beside the screen, nothing cut off, and text that stands out.
    ask(document.documentElement.scrollWidth <= innerWidth, "wider than the screen: " + document.documentElement.scrollWidth);
    for (const cell of all("th, td, .hundred")) {
        ask(cell.scrollWidth <= cell.clientWidth + 1, "out of its place: " + tag(cell));
    }
    const numbers = (color) => color.match(/[\d.]+/g).map(Number);
    const light = (color) => {
        const [r, g, b] = numbers(color).map((c) => (c /= 255) <= 0.04045 ? c / 12.92 : ((c + 0.055) / 1.055) ** 2.4);
        return 0.2126 * r + 0.7152 * g + 0.0722 * b;
    };
    const ground = (element) => {
        const color = element ? getComputedStyle(element).backgroundColor : "rgb(255, 255, 255)";
        return numbers(color)[3] === 0 ? ground(element.parentElement) : color;
    };
    const seen = new Set();
    for (const element of all("body *")) {
        if ([...element.childNodes].some((node) => node.nodeType === Node.TEXT_NODE && node.data.trim())) {
            const pair = getComputedStyle(element).color + " on " + ground(element);
            const [dark, bright] = pair.split(" on ").map(light).sort((a, b) => a - b);
            if (!seen.has(pair) && (bright + 0.05) / (dark + 0.05) < 4.5) faults.push(pair + ": " + tag(element));
            seen.add(pair);
        }
    }
    return faults.join("\n");
})()

"""Scripts that look at the page: as a person with a screen reader, a keyboard or weak eyes does, and for
what an attack would leave."""

# What may not be there, whatever a package says: elements that load or run something, forms and ids in a
# README, handlers of events, and links that lead elsewhere than to the web or to a view.
HARM = """(() => {
    const all = (selector) => [...document.querySelectorAll(selector)];
    const loads = 'script, style, link, iframe, object, embed, svg, math, img, video, audio, template, meta, base, portal, marquee, picture';
    const acts = 'form, input, button, dialog, [style], [id], [name], [class*=bar]';
    const handlers = all('main *').flatMap((it) => [...it.attributes].map(({ name }) => name).filter((name) => /^on|^srcdoc$|^is$/.test(name)));
    const links = all('main a').filter((it) => !/^(#|https?:)/.test(it.getAttribute('href')));
    return [...all(`main :is(${loads})`), ...all(`.readme :is(${acts})`), ...links].map((it) => it.outerHTML).concat(handlers);
})()"""

# Where a token might be kept: storages of all kinds (the first five), the address, the history, the page,
# its fields, and global texts.
KEPT = """(async () => [
    localStorage.length, sessionStorage.length, document.cookie, (await indexedDB.databases()).length, (await caches.keys()).length,
    location.href, JSON.stringify(history.state), document.documentElement.outerHTML, window.name,
    [...document.querySelectorAll('input')].map((it) => it.value).join(),
    Object.getOwnPropertyNames(globalThis).map((name) => {
        try { return typeof globalThis[name] === 'string' ? globalThis[name] : ''; } catch { return ''; }
    }).join(),
])()"""

# What goes beyond 320 pixels.
WIDE = """[...document.querySelectorAll('body *')].filter((it) => it.getBoundingClientRect().right > 321 && !it.closest('pre, .wide'))
    .slice(0, 5).map((it) => it.outerHTML.slice(0, 120))"""

# What is wrong with the structure: language, title, landmarks, one first title, levels without a gap, labels,
# names of links and buttons, tabs and their panels, references, doubled ids, tables with heads.
LOOKS = """(() => {
    const wrong = [];
    const all = (selector) => [...document.querySelectorAll(selector)];
    const seen = (it) => it.checkVisibility?.({ visibilityProperty: true }) ?? true;
    const check = (is, what) => { if (!is) wrong.push(what); };
    check(document.documentElement.lang === 'en', 'language');
    check(document.title.trim(), 'title');
    check(all('main').length === 1 && all('body > header').length === 1, 'landmarks');
    const titles = all('h1, h2, h3, h4, h5, h6').filter(seen);
    check(titles.filter((it) => it.tagName === 'H1').length === 1 && titles[0].tagName === 'H1', 'one first title');
    const levels = titles.map((it) => Number(it.tagName[1]));
    titles.forEach((it, at) => check(levels[at] <= (levels[at - 1] ?? 0) + 1 || it.closest('.readme'), `level of ${it.innerText}`));
    for (const it of all('input')) check(it.labels.length === 1 || it.getAttribute('aria-label'), `label of ${it.outerHTML}`);
    for (const it of all('a, button').filter(seen)) check((it.getAttribute('aria-label') ?? it.innerText).trim(), `name of ${it.outerHTML}`);
    for (const it of all('[aria-controls], [aria-labelledby], [aria-describedby]')) for (const name of ['aria-controls', 'aria-labelledby', 'aria-describedby'])
        for (const id of (it.getAttribute(name) ?? '').split(' ').filter(Boolean)) check(document.getElementById(id), `${name} ${id}`);
    const ids = all('[id]').map((it) => it.id);
    check(new Set(ids).size === ids.length, `ids ${ids}`);
    for (const it of all('[role=tablist]')) check(it.querySelectorAll('[aria-selected=true]').length === 1 && it.getAttribute('aria-label'), 'tabs');
    for (const it of all('main table')) check(it.closest('.readme') || it.querySelectorAll('thead th[scope=col]').length, 'heads of a table');
    for (const it of all('[tabindex]')) check(Number(it.getAttribute('tabindex')) <= 0, 'an order of its own');
    check(all('[role=status]').length >= 1, 'a place for what is said');
    for (const it of all('a')) check(it.hasAttribute('href'), 'a link without an address');
    return wrong;
})()"""

# The contrast of each text that can be seen with what is behind it, and of the edges of fields and buttons.
CONTRAST = """(() => {
    const context = new OffscreenCanvas(1, 1).getContext('2d', { willReadFrequently: true });
    const colours = new Map();
    const colour = (text) => {
        if (!colours.has(text)) {
            context.clearRect(0, 0, 1, 1);
            context.fillStyle = text;
            context.fillRect(0, 0, 1, 1);
            colours.set(text, [...context.getImageData(0, 0, 1, 1).data]);
        }
        return colours.get(text);
    };
    const line = (it) => (it / 255 <= 0.04045 ? it / 255 / 12.92 : ((it / 255 + 0.055) / 1.055) ** 2.4);
    const light = ([r, g, b]) => 0.2126 * line(r) + 0.7152 * line(g) + 0.0722 * line(b);
    const ratio = (one, other) => { const [low, high] = [light(one), light(other)].sort((a, b) => a - b); return (high + 0.05) / (low + 0.05); };
    const behind = (it) => {
        for (let at = it; at; at = at.parentElement) {
            const back = colour(getComputedStyle(at).backgroundColor);
            if (back[3] === 255) return back;
        }
        return colour('Canvas');
    };
    const low = [];
    let checked = 0;
    const check = (front, back, least, what) => { checked += 1; const is = ratio(colour(front), back); if (is < least) low.push(`${what}: ${is.toFixed(2)}`); };
    for (const it of document.querySelectorAll('body *')) {
        if (!it.checkVisibility({ visibilityProperty: true, opacityProperty: true }) || it.disabled) continue;
        const style = getComputedStyle(it);
        const hasText = [...it.childNodes].some((node) => node.nodeType === 3 && node.data.trim());
        const size = parseFloat(style.fontSize);
        const isLarge = size >= 24 || (size >= 18.66 && Number(style.fontWeight) >= 700);
        if (hasText) check(style.color, behind(it), isLarge ? 3 : 4.5, `${it.tagName} ${it.className} ${it.innerText?.slice(0, 30)}`);
        if (it.placeholder) check(getComputedStyle(it, '::placeholder').color, behind(it), 4.5, 'placeholder');
        if (it.matches('input, button:not([role=tab])')) check(style.borderTopColor, behind(it.parentElement), 3, `edge of ${it.tagName} ${it.className}`);
    }
    return { checked, low };
})()"""

# What the Tab key should stop at, in the order of the page, is kept; their number is given. And where it is now.
STOPS = """(() => {
    const stops = 'a[href], button:not(:disabled), input:not(:disabled), summary, [tabindex="0"]';
    globalThis.stops = [...document.querySelectorAll(stops)].filter((it) => it.tabIndex >= 0 && it.checkVisibility({ visibilityProperty: true }));
    return globalThis.stops.length;
})()"""
STOP = 'stops.indexOf(document.activeElement)'

// The registry's page. It asks the registry's own JSON, as npm does, and shows it. It sends GET alone,
// and asks no other address. Whatever a package says is hostile: it is only ever put into the page as
// text, or as Markdown that a worker read and DOMPurify cleaned.
//
// The token is in one variable of this module, and goes into the header of a request: never into an
// address, a storage or the page.

const MIB = 1 << 20;
const PATIENCE = 20_000;            // milliseconds for an answer
const LARGEST_ANSWER = 32 * MIB;
const LARGEST_DETAIL = MIB;         // of the document of a version, for the list
const LARGEST_README = 256 << 10;   // characters
const README_LINES = 5_000;
const LARGEST_ARCHIVE = 32 * MIB;   // bytes of an archive that are unpacked to find a README
const MARKDOWN_TIME = 3_000;        // milliseconds until Markdown is shown as text instead
const MARKDOWN_TAGS = 10_000;       // and tags
const ROWS = 1_000;                 // packages shown at a time
const VERSIONS = 100;               // versions shown at a time
const ITEMS = 50;                   // tags, dependencies and other things shown at a time
const LOOK_UPS = 40;                // names of dependencies that the registry is asked for
const TEAMS = 20;                   // teams that are asked for without being opened
const DETAILS_AT_ONCE = 3;
const AT_ONCE = 4;
const NO_README = 'ERROR: No README data found!';

// Each request has this query, which the registry ignores. With it the front never looks for a name in a
// public registry.
const FROM_THE_PAGE = '?page';

// ---- values of answers, which may have any shape

const isObject = (value) => typeof value === 'object' && value !== null && !Array.isArray(value);
const own = (value, key) => (isObject(value) && Object.hasOwn(value, key) ? value[key] : undefined);
const entries = (value) => (isObject(value) ? Object.entries(value) : []);
const items = (value) => (Array.isArray(value) ? value : []);

const KINDS = [['dependencies', 'Dependencies'], ['peerDependencies', 'Peer dependencies'], ['optionalDependencies', 'Optional dependencies']];

// Each character is shown as a mark that turns the direction of text, or that isn't seen: by Unicode's own
// properties, and two symbols that are blank. Tabs and newlines stay, and so does an emoji as Unicode lists
// it, with the characters that join it.
const EMOJI_OR_UNSEEN =
    /(\p{RGI_Emoji})|[[\p{Bidi_Control}\p{Default_Ignorable_Code_Point}\p{Cf}\p{Zl}\p{Zp}\p{Cc}\u2800\u{1d159}]--[\t\n]]/gv;
const visible = (text) => text.replaceAll('\r\n', '\n').replace(EMOJI_OR_UNSEEN, (_, emoji) => emoji ?? '\ufffd');
const shortened = (text, longest) => (text.length > longest ? `${text.slice(0, longest)}…` : text);
const textOf = (value, longest = 300) => (typeof value === 'string' ? visible(shortened(value.trim(), longest)) : '');

const count = (number, one, many = `${one}s`) => `${number.toLocaleString('en')} ${number === 1 ? one : many}`;
const order = new Intl.Collator('en', { numeric: true }).compare;
const scopeOf = (name) => (name.startsWith('@') && name.includes('/') ? name.slice(1, name.indexOf('/')) : '');
const escaped = encodeURIComponent;

const DATE = new Intl.DateTimeFormat('en-GB', { dateStyle: 'medium' });
const AGO = new Intl.RelativeTimeFormat('en', { numeric: 'auto' });
const SPANS = [['year', 31_557_600], ['month', 2_629_800], ['week', 604_800], ['day', 86_400], ['hour', 3_600], ['minute', 60]];

function agoOf(moment) {
    const seconds = (moment - Date.now()) / 1000;
    const span = SPANS.find(([, length]) => Math.abs(seconds) >= length);
    return span ? AGO.format(Math.trunc(seconds / span[1]), span[0]) : 'just now';
}

function sizeOf(bytes) {
    if (typeof bytes !== 'number' || !(bytes >= 0)) return '';
    return bytes < 1000 ? count(bytes, 'byte') : bytes < 1e6 ? `${(bytes / 1000).toFixed(1)} kB` : `${(bytes / 1e6).toFixed(1)} MB`;
}

// An address on the web, or null. Nothing else becomes a link.
function webAddress(value) {
    if (typeof value !== 'string' || value.length > 2000) return null;
    const plain = value.trim().replace(/^git\+(?=https?:)/, '').replace(/^git:\/\//, 'https://')
        .replace(/^(github|gitlab):([\w.-]+\/[\w.-]+)$/, 'https://$1.com/$2');
    try {
        const address = new URL(plain);
        return ['https:', 'http:'].includes(address.protocol) && !address.username && !address.password ? address : null;
    } catch {
        return null;
    }
}

// ---- asking the registry

let token = '';

class Refusal extends Error {
    constructor(status, name = '') {
        super(`${status} ${name}`);
        Object.assign(this, { status, refused: name });
    }
}

// The bytes of an answer, piece by piece, up to a limit.
async function* piecesOf(body, limit) {
    const reader = body.getReader();
    let taken = 0;
    try {
        for (;;) {
            const { done, value } = await reader.read();
            if (done) return;
            taken += value.length;
            if (taken > limit) throw new Refusal('large');
            yield value;
        }
    } finally {
        reader.cancel().catch(() => {});
    }
}

async function textIn(body, limit) {
    const decoder = new TextDecoder();
    let text = '';
    for await (const piece of piecesOf(body, limit)) text += decoder.decode(piece, { stream: true });
    return text + decoder.decode();
}

async function valueIn(response, limit) {
    const text = response.body ? await textIn(response.body, limit) : '';
    try {
        return JSON.parse(text);
    } catch {
        throw new Refusal('form');
    }
}

async function refusalOf(response) {
    const value = await valueIn(response, LARGEST_DETAIL).catch(() => null);
    return new Refusal(response.status, textOf(own(value, 'error'), 60));
}

async function answerOf(path, signals) {
    const headers = { accept: 'application/json' };
    if (token) headers.authorization = `Bearer ${token}`;
    const response = await fetch(path + FROM_THE_PAGE, {
        headers, signal: AbortSignal.any(signals), cache: 'no-store', credentials: 'omit', redirect: 'error', referrerPolicy: 'no-referrer',
    });
    if (!response.ok) throw await refusalOf(response);
    return response;
}

// What the registry answers to GET, by a reader of the response. A view that was left asks no more.
async function ask(path, signal, read = (response) => valueIn(response, LARGEST_ANSWER)) {
    const patience = AbortSignal.timeout(PATIENCE);
    try {
        return await read(await answerOf(path, [signal, patience]));
    } catch (error) {
        if (signal.aborted || error instanceof Refusal) throw error;
        throw new Refusal(patience.aborted ? 'slow' : 'away');
    }
}

const paths = {
    caller: () => '/-/whoami',
    ownPackages: (user) => `/-/user/${escaped(user)}/package`,
    package: (name) => `/${escaped(name)}`,
    version: (name, version) => `/${escaped(name)}/${escaped(version)}`,
    archive: (name, version) => `/${escaped(name)}/-/${escaped(`${name.slice(name.indexOf('/') + 1)}-${version}.tgz`)}`,
    tags: (name) => `/-/package/${escaped(name)}/dist-tags`,
    visibility: (name) => `/-/package/${escaped(name)}/visibility`,
    members: (org) => `/-/org/${escaped(org)}/user`,
    teams: (org) => `/-/org/${escaped(org)}/team`,
    orgPackages: (org) => `/-/org/${escaped(org)}/package`,
    teamMembers: (org, team) => `/-/team/${escaped(org)}/${escaped(team)}/user`,
    teamPackages: (org, team) => `/-/team/${escaped(org)}/${escaped(team)}/package`,
};

// Does something with each item, some at a time. A Refusal ends all.
async function each(list, work, atOnce = AT_ONCE) {
    const left = [...list];
    const worker = async () => {
        while (left.length) await work(left.shift());
    };
    try {
        await Promise.all(Array.from({ length: atOnce }, worker));
    } catch (error) {
        left.length = 0;
        throw error;
    }
}

// ---- refusals, in words

const LINES = {
    away: ['The registry can’t be reached.', 'Check your network, then try again.'],
    slow: ['The registry took too long to answer.', 'Try again in a moment.'],
    large: ['The answer is too large for this page.', 'The command npm view shows it.'],
    form: ['The answer isn’t one of the registry’s.', 'This page needs a registry that is served with --npm, behind its front.'],
    nobody: ['Only members see an organisation.', 'Sign in to see it.'],
    400: ['This isn’t a name that the registry can have.', 'Check the spelling.'],
    401: ['The registry doesn’t know this token.', 'It may have ended. Sign in with another one, or ask your administrator.'],
    403: ['You may not see this.', 'Only members of the organisation do.'],
    404: ['There is nothing of this name here, or you may not see it.', 'Check the spelling, or ask your team for access.'],
    405: ['The registry doesn’t answer this question.', 'It may be served without --npm.'],
    409: ['The package changed meanwhile.', 'Try again.'],
    413: ['The registry found the request too large.', 'Try again with a shorter name.'],
    429: ['Too many requests came from your address.', 'Wait a moment, then try again.'],
    500: ['The registry’s disk or tables failed.', 'Nothing was changed. Tell your administrator.'],
    502: ['The front answers, but the registry behind it doesn’t.', 'Try again in a moment, or tell your administrator.'],
    503: ['The registry has no memory left for this answer.', 'Try again in a moment.'],
    504: ['The registry behind the front is too busy.', 'Try again in a moment.'],
};

function linesOf(error) {
    if (!(error instanceof Refusal)) {
        reportError(error);
        return ['The page failed.', 'Reload it.'];
    }
    return LINES[error.status] ?? [`The registry answered with status ${error.status}.`, 'Try again in a moment, or tell your administrator.'];
}

// ---- elements

function element(tag, attributes = {}, ...children) {
    const node = document.createElement(tag);
    for (const [name, value] of Object.entries(attributes)) {
        if (name.startsWith('on')) node.addEventListener(name.slice(2), value);
        else if (value !== false && value !== null && value !== undefined) node.setAttribute(name, value === true ? '' : value);
    }
    node.append(...children.flat(Infinity).filter((child) => child !== null && child !== undefined && child !== false));
    return node;
}

// What is typed is no word of a language, and isn't kept by the browser.
const PLAIN = { autocomplete: 'off', spellcheck: 'false', autocapitalize: 'off' };

const byId = (id) => document.getElementById(id);
const link = (to, ...children) => element('a', { href: to }, ...children);
const routeOf = (name, version) => `#/${name}${version ? `/${version}` : ''}`;
const badge = (text, kind = '') => element('span', { class: `badge ${kind}` }, text);
const button = (text, onclick, kind = '') => element('button', { type: 'button', class: kind, onclick }, text);
const section = (title, ...children) => element('section', {}, element('h2', {}, title), ...children);
const quiet = (...children) => element('span', { class: 'quiet' }, ...children);
const note = (...children) => element('p', { class: 'quiet' }, ...children);
const strong = (text) => element('strong', {}, text);
const tagBadges = (it, version) => it.tags.filter(([, to]) => to === version).slice(0, 5).map(([tag]) => badge(textOf(tag, 40), 'tag'));
const part = (title, ...children) => element('section', {}, element('h3', {}, title), ...children);

function outside(address, text = `${address.host}${address.pathname.replace(/\/$/, '')}`) {
    return element('a', { href: address.href, target: '_blank', rel: 'noopener noreferrer nofollow', class: 'outside' },
        visible(text), element('span', { class: 'unseen' }, ' (opens a new tab)'));
}

function timeOf(iso) {
    const moment = Date.parse(iso);
    if (Number.isNaN(moment)) return quiet('unknown');
    const date = new Date(moment);
    const title = `${date.toLocaleString('en-GB')}, ${agoOf(moment)}`;
    return element('time', { datetime: date.toISOString(), title }, DATE.format(date));
}

function say(text) {
    byId('said').textContent = text;
}

function noticeOf(error, again) {
    const [what, advice] = linesOf(error);
    return element('div', { class: 'notice', role: 'alert' }, element('p', {}, strong(what), ' ', advice),
        again ? button('Try again', again) : null);
}

// Items in a list, some at a time.
function some(list, atOnce, parent, made, one, many) {
    const more = element('div', { class: 'more' });
    let shown = 0;
    const show = (isAsked) => {
        const added = list.slice(shown, shown + atOnce).map(made);
        parent.append(...added);
        shown += added.length;
        const left = list.length - shown;
        const next = `Show ${Math.min(atOnce, left).toLocaleString('en')} more`;
        more.replaceChildren(...left > 0 ? [button(next, () => show(true)), ` of ${count(left, one, many)}`] : []);
        if (isAsked) added[0]?.querySelector('a, button')?.focus();
    };
    show(false);
    return [parent, more];
}

async function copied(text, place, from) {
    try {
        await navigator.clipboard.writeText(text);
        from.textContent = 'Copied';
        say('Copied.');
        setTimeout(() => { from.textContent = 'Copy'; }, 2000);
    } catch {
        getSelection().selectAllChildren(place);
        say('Selected. Copy it with your keyboard.');
    }
}

// Lines to be copied.
function toCopy(text, label) {
    const code = element('code', {}, text);
    const lines = element('pre', {}, code);
    const copy = button('Copy', () => copied(text, code, copy), 'copy');
    copy.setAttribute('aria-label', `Copy: ${label}`);
    return element('div', { class: 'lines' }, lines, copy);
}

// ---- who is signed in

const session = { user: '', levels: new Map(), details: new Map() };

function signOut(line = 'Signed out.') {
    token = '';
    Object.assign(session, { user: '', levels: new Map(), details: new Map() });
    leaveHome();
    showSession();
    say(line);
}

// A token, perhaps with what stands before it in .npmrc.
function tokenIn(text) {
    const plain = text.trim().replace(/^.*_authToken\s*=\s*/s, '').replace(/^bearer\s+/i, '').replace(/^(["'])(.*)\1$/, '$2');
    return /^[\w.~+/=-]+$/.test(plain) ? plain : '';
}

function levelsIn(value) {
    const rows = entries(value).filter(([, level]) => level === 'read' || level === 'write');
    return new Map(rows.sort(([one], [other]) => order(one, other)));
}

// Where it is refused, nobody else is signed in, and who was is so still.
async function signIn(text) {
    const before = token;
    token = tokenIn(text);
    const signal = new AbortController().signal;
    try {
        if (!token) throw new Refusal(401);
        const user = textOf(own(await ask(paths.caller(), signal), 'username'), 64);
        if (!user) throw new Refusal(404);
        const levels = levelsIn(await ask(paths.ownPackages(user), signal));
        Object.assign(session, { user, levels, details: new Map() });
    } catch (error) {
        token = before;
        // Whoever asks who they are is somebody: only a registry without --npm has no such question.
        throw error.status === 404 ? new Refusal('form') : error;
    }
    leaveHome();
    showSession();
    say(`Signed in as ${session.user}. ${count(session.levels.size, 'package')}.`);
}

function signInForm(id, done) {
    const problem = element('p', { class: 'problem', id: `${id}-problem`, role: 'alert' });
    const field = element('input', {
        id, type: 'password', placeholder: 'npm_…', required: true, 'aria-describedby': `${id}-about ${id}-problem`, ...PLAIN,
    });
    const go = element('button', { type: 'submit', class: 'first' }, 'Sign in');
    const submit = async (event) => {
        event.preventDefault();
        problem.textContent = '';
        go.disabled = true;
        try {
            await signIn(field.value);
            field.value = '';
            done();
        } catch (error) {
            problem.textContent = linesOf(error).join(' ');
            field.focus();
            field.select();
        } finally {
            go.disabled = false;
        }
    };
    return element('form', { class: 'sign-in', onsubmit: submit },
        element('label', { for: id }, 'Your token'),
        element('div', { class: 'field' }, field, go),
        problem,
        element('p', { class: 'quiet', id: `${id}-about` },
            'It stands in the file .npmrc of your home folder, or your administrator gives you one. ',
            'The page keeps it only until you close or reload this tab.'));
}

function openDialog() {
    const dialog = element('dialog', { 'aria-labelledby': 'dialog-title', onclose: () => dialog.remove() },
        element('h2', { id: 'dialog-title' }, 'Sign in'),
        signInForm('dialog-token', () => {
            dialog.close();
            show();
        }),
        button('Cancel', () => dialog.close()));
    document.body.append(dialog);
    dialog.showModal();
}

function showSession() {
    const leave = () => {
        signOut();
        if (location.hash === '#/' || location.hash === '') show();
        else location.hash = '#/';
    };
    byId('session').replaceChildren(...session.user
        ? [element('p', {}, element('span', { class: 'quiet as' }, 'Signed in as '), strong(session.user)), button('Sign out', leave)]
        : [button('Sign in', openDialog)]);
}

// ---- lists of packages

// What the list says of a package beside its level: asked for while its row can be seen.
class Details {
    constructor(levels, signal) {
        Object.assign(this, { levels, signal, waiting: new Map(), busy: 0, resting: false });
        this.observer = new IntersectionObserver((seen) => seen.forEach((it) => this.see(it)), { rootMargin: '150px' });
        signal.addEventListener('abort', () => this.observer.disconnect());
    }

    see({ target, isIntersecting }) {
        const name = target.getAttribute('data-name');
        if (isIntersecting) this.waiting.set(name, target);
        else this.waiting.delete(name);
        this.go();
    }

    go() {
        while (this.busy < DETAILS_AT_ONCE && this.waiting.size && !this.resting && !this.signal.aborted) {
            const [name, row] = this.waiting.entries().next().value;
            this.waiting.delete(name);
            this.observer.unobserve(row);
            this.busy += 1;
            this.fill(name, row).finally(() => {
                this.busy -= 1;
                this.go();
            });
        }
    }

    async fill(name, row) {
        try {
            const detail = await detailOf(name, this.signal);
            describe(row, this.levels.get(name), detail);
        } catch (error) {
            if (error instanceof Refusal && ![404, 'large'].includes(error.status)) this.rest();
        }
    }

    // A registry that refuses is left alone for a while.
    rest() {
        this.resting = true;
        setTimeout(() => {
            this.resting = false;
            this.go();
        }, 10_000);
    }
}

async function isPublic(name, signal) {
    return !scopeOf(name) || own(await ask(paths.visibility(name), signal), 'public') === true;
}

async function detailOf(name, signal) {
    const { details } = session;
    if (!details.has(name)) {
        const latest = ask(paths.version(name, 'latest'), signal, (response) => valueIn(response, LARGEST_DETAIL));
        const [document, isOpen] = await Promise.all([latest, isPublic(name, signal)]);
        details.set(name, {
            version: textOf(own(document, 'version'), 40), description: textOf(own(document, 'description'), 200), isOpen,
            isDeprecated: Boolean(own(document, 'deprecated')),
            needs: new Set(KINDS.flatMap(([kind]) => entries(own(document, kind)).map(([it]) => it))),
        });
    }
    return details.get(name);
}

const statusBadge = (isOpen) => (isOpen ? badge('public', 'status') : badge('restricted', 'status restricted'));
const levelBadge = (level) => badge(level === 'write' ? 'you can publish' : 'you can read', 'level');

// A row before its details are there. A thousand are made at once, so they are copied.
const emptyRow = (level) => element('li', { class: 'row' },
    element('a', { class: 'name' }, element('span', { class: 'scope' })),
    element('p', { class: 'facts' }, levelBadge(level)));
const ROWS_OF = globalThis.document && { read: emptyRow('read'), write: emptyRow('write') };

function rowOf(name, level, details) {
    const scope = scopeOf(name);
    const row = ROWS_OF[level].cloneNode(true);
    const anchor = row.firstChild;
    row.setAttribute('data-name', name);
    anchor.setAttribute('href', routeOf(name));
    anchor.firstChild.textContent = scope ? visible(`@${scope}/`) : '';
    anchor.append(visible(scope ? name.slice(scope.length + 2) : name));
    const known = session.details.get(name);
    if (known) describe(row, level, known);
    else details.observer.observe(row);
    return row;
}

function describe(row, level, detail) {
    const warning = detail.isDeprecated && badge('deprecated', 'deprecated');
    const facts = [warning, statusBadge(detail.isOpen), levelBadge(level), element('span', { class: 'number' }, detail.version)];
    row.querySelector('.facts').replaceChildren(...facts.filter(Boolean));
    if (detail.description) row.append(element('p', { class: 'about' }, detail.description));
}

function matches(name, words) {
    const about = session.details.get(name)?.description.toLowerCase() ?? '';
    return words.every((word) => name.includes(word) || about.includes(word));
}

// The names that have all words; those that begin with the first one come first.
function found(names, typed) {
    const words = typed.toLowerCase().split(/\s+/).filter(Boolean);
    if (!words.length) return names;
    const begins = (name) => name.slice(name.indexOf('/') + 1).startsWith(words[0]) || name.startsWith(words[0]);
    const hits = names.filter((name) => matches(name, words));
    return [...hits.filter(begins), ...hits.filter((name) => !begins(name))];
}

function arrows(event) {
    const steps = { ArrowDown: 1, ArrowUp: -1 };
    const step = steps[event.key];
    if (!step) return;
    const places = [...event.currentTarget.querySelectorAll('input[type=search], .row a')];
    const next = places[places.indexOf(document.activeElement) + step];
    if (next) {
        event.preventDefault();
        next.focus();
    }
}

// A list of packages that is filtered while one types.
function packageList(levels, id, signal) {
    const names = [...levels.keys()];
    const details = new Details(levels, signal);
    const rows = new Map();
    const list = element('ul', { class: 'rows', role: 'list' });
    const more = element('div', { class: 'more' });
    const number = element('p', { class: 'quiet count', role: 'status' });
    const field = element('input', { id, type: 'search', placeholder: 'Type a part of a name', ...PLAIN });
    const row = (name) => {
        if (!rows.has(name)) rows.set(name, rowOf(name, levels.get(name), details));
        return rows.get(name);
    };
    const fill = (limit) => {
        const hits = found(names, field.value);
        list.replaceChildren(...hits.slice(0, limit).map(row));
        const left = hits.length - limit;
        more.replaceChildren(...left > 0 ? [button(`Show ${Math.min(ROWS, left).toLocaleString('en')} more`, () => fill(limit + ROWS))] : []);
        const all = count(names.length, 'package');
        number.textContent = hits.length === names.length ? all : `${hits.length.toLocaleString('en')} of ${all}`;
        if (!hits.length) more.replaceChildren(...nothingFound(field.value));
    };
    const open = (event) => {
        event.preventDefault();
        const [first] = found(names, field.value);
        if (field.value.trim() && first) location.hash = routeOf(first);
    };
    field.addEventListener('input', () => fill(ROWS));
    fill(ROWS);
    return element('div', { class: 'list', onkeydown: arrows },
        element('form', { class: 'filter', role: 'search', onsubmit: open }, element('label', { for: id }, 'Filter'), field, number), list, more);
}

function nothingFound(typed) {
    const name = nameIn(typed);
    if (!name) return [note('No package.')];
    return [note('None of your packages has this in its name. ', link(routeOf(name), `Open ${name}`), ' looks for it elsewhere.')];
}

// A name of a package or, after @, of an organisation. The registry has none in another form.
function nameIn(typed) {
    const name = typed.trim().toLowerCase().replace(/^npm (install|i|add) /, '');
    return name.length <= 214 && /^(@[a-z0-9][\w-]*(\/[a-z0-9_.][\w.-]*)?|[a-z0-9][\w.-]*)$/.test(name) ? name : '';
}

// ---- the first view

const home = { view: null, scroll: 0, end: null };

// What it shows isn't so any more.
function leaveHome() {
    home.end?.abort();
    home.view = null;
}

// The list is asked for anew.
async function refresh() {
    try {
        await signIn(token);
        show();
    } catch (error) {
        if (error.status === 401) signOut('Your token isn’t known any more.');
        failed(byId('main'), 'Your packages', error);
    }
}

function openForm() {
    const problem = element('p', { class: 'problem', id: 'open-problem', role: 'alert' });
    const field = element('input', { id: 'open', type: 'text', placeholder: 'kit or @team/kit', required: true, 'aria-describedby': 'open-problem', ...PLAIN });
    const submit = (event) => {
        event.preventDefault();
        const name = nameIn(field.value);
        problem.textContent = name ? '' : linesOf(new Refusal(400)).join(' ');
        if (name) location.hash = routeOf(name);
    };
    return element('form', { class: 'open', onsubmit: submit }, element('label', { for: 'open' }, 'Name of a package, or @ and an organisation'),
        element('div', { class: 'field' }, field, element('button', { type: 'submit' }, 'Open')), problem);
}

function setUp(scopes, needsToken) {
    const { origin, host } = location;
    const lines = [...scopes.map((scope) => (scope ? `@${scope}:registry=${origin}/` : `registry=${origin}/`)),
        ...needsToken ? [`//${host}/:_authToken=YOUR_TOKEN`] : []];
    return element('details', { class: 'set-up' },
        element('summary', {}, 'First time on this machine? Tell npm where the registry is'),
        element('p', {}, 'Add ', lines.length === 1 ? 'this line' : 'these lines', ' to the file ', element('code', {}, '.npmrc'),
            ' in your home folder',
            needsToken ? [', with your token in place of ', element('code', {}, 'YOUR_TOKEN')] : null, ':'),
        toCopy(`${lines.join('\n')}\n`, 'lines for .npmrc'));
}

function homeOfNobody() {
    return element('div', { class: 'welcome' },
        element('h1', { tabindex: '-1' }, 'Packages'),
        section('See your team’s packages', signInForm('token', show)),
        section('Open a public package', note('No token is needed.'), openForm()));
}

function homeOfUser(signal) {
    const scopes = [...new Set([...session.levels.keys()].map(scopeOf))];
    const orgs = scopes.filter(Boolean);
    return element('div', {},
        element('div', { class: 'title' }, element('h1', { tabindex: '-1' }, 'Your packages'), button('Refresh', refresh)),
        orgs.length ? element('nav', { class: 'orgs', 'aria-label': 'Organisations' }, quiet('Organisations'),
            ...orgs.slice(0, ITEMS).map((org) => link(`#/@${org}`, `@${org}`))) : null,
        session.levels.size ? packageList(session.levels, 'filter', signal)
            : element('p', {}, 'There is no package yet that you maintain, or that is in your organisations.'),
        section('Open another package or an organisation', openForm()));
}

function showHome(place) {
    document.title = `Packages · ${location.host}`;
    if (!home.view) {
        home.end = new AbortController();
        home.scroll = 0;
        home.view = session.user ? homeOfUser(home.end.signal) : homeOfNobody();
    }
    place.replaceChildren(home.view);
    scrollTo(0, home.scroll);
    return session.user ? byId('filter') : null;
}

// ---- a package

const timesOf = (packument) => own(packument, 'time');

// Live versions alone are members of `versions`: newest first.
function versionsOf(packument) {
    const times = timesOf(packument);
    const rows = entries(own(packument, 'versions')).filter(([, manifest]) => isObject(manifest))
        .map(([version, manifest]) => ({ version, manifest, time: own(times, version), moment: Date.parse(own(times, version)) || 0 }));
    return rows.sort((one, other) => other.moment - one.moment || order(other.version, one.version));
}

function tagsOf(packument) {
    const rows = entries(own(packument, 'dist-tags')).filter(([, version]) => typeof version === 'string');
    return rows.sort(([one], [other]) => (other === 'latest') - (one === 'latest') || order(one, other));
}

// For a shell: what isn't plain is put in quotes.
const quoted = (word) => (/^[\w@./~^-]+$/.test(word) ? word : `'${word.replaceAll("'", "'\\''")}'`);

function installLine(name, version, isLatest) {
    return `npm install ${quoted(isLatest ? name : `${name}@${version}`)}`;
}

function deprecationOf(manifest) {
    const message = own(manifest, 'deprecated');
    return message ? textOf(message, 1100) || 'This version is deprecated.' : '';
}

const fact = (title, ...children) => [element('dt', {}, title), element('dd', {}, ...children)];

function peopleOf(value) {
    return typeof value === 'string' ? textOf(value, 100) : textOf(own(value, 'name'), 100);
}

function licenceOf(manifest) {
    const licence = own(manifest, 'license');
    return textOf(licence, 60) || textOf(own(licence, 'type'), 60);
}

function factsList(it) {
    const { manifest } = it.row;
    const repository = own(manifest, 'repository');
    const bugs = own(manifest, 'bugs');
    const places = [['Home page', own(manifest, 'homepage')], ['Repository', own(repository, 'url') ?? repository], ['Issues', own(bugs, 'url') ?? bugs]]
        .map(([title, value]) => [title, webAddress(value)]).filter(([, address]) => address);
    const keywords = items(own(manifest, 'keywords')).map((word) => textOf(word, 40)).filter(Boolean).slice(0, 20);
    const dist = own(manifest, 'dist');
    return element('dl', { class: 'facts-list' },
        licenceOf(manifest) ? fact('Licence', licenceOf(manifest)) : null,
        peopleOf(own(manifest, 'author')) ? fact('Author', peopleOf(own(manifest, 'author'))) : null,
        places.map(([title, address]) => fact(title, outside(address))),
        sizeOf(own(dist, 'unpackedSize')) ? fact('Unpacked size', sizeOf(own(dist, 'unpackedSize'))) : null,
        textOf(own(own(manifest, 'engines'), 'node')) ? fact('Node', textOf(own(own(manifest, 'engines'), 'node'), 60)) : null,
        keywords.length ? fact('Keywords', keywords.join(', ')) : null);
}

function tagList(it) {
    const list = element('ul', { class: 'plain', role: 'list' });
    return section('Tags', ...some(it.tags, ITEMS, list, ([tag, version]) =>
        element('li', {}, badge(textOf(tag, 60), 'tag'), ' ', link(routeOf(it.name, version), textOf(version, 60))), 'tag'));
}

function versionRow(it, { version, manifest, time }) {
    const message = deprecationOf(manifest);
    const isShown = version === it.row.version;
    return element('tr', {},
        element('th', { scope: 'row' },
            element('a', { href: routeOf(it.name, version), 'aria-current': isShown && 'true' }, textOf(version, 80)), ' ', tagBadges(it, version),
            message ? element('p', { class: 'message' }, badge('deprecated', 'deprecated'), ' ', message) : null),
        element('td', {}, timeOf(time)));
}

function versionsPanel(it) {
    const body = element('tbody');
    const table = element('table', { class: 'versions' },
        element('thead', {}, element('tr', {}, element('th', { scope: 'col' }, 'Version'), element('th', { scope: 'col' }, 'Published'))), body);
    const [, more] = some(it.versions, VERSIONS, body, (row) => versionRow(it, row), 'version');
    return [table, more];
}

function dependencyRow(name, range, isHere) {
    const shown = textOf(name, 214);
    return element('li', { 'data-dependency': name },
        element('span', { class: 'who' }, isHere ? link(routeOf(name), shown) : shown), ' ',
        element('span', { class: 'number quiet' }, textOf(range, 80)));
}

// Names that the caller's lists lack may be public packages of the house. The registry is asked for some.
async function lookUp(names, signal, tell) {
    const unknown = names.filter((name) => !session.levels.has(name) && nameIn(name) === name).slice(0, LOOK_UPS);
    await each(unknown, async (name) => {
        const is = await ask(paths.tags(name), signal).then(() => true, (error) => {
            if (error instanceof Refusal && [400, 404].includes(error.status)) return false;
            throw error;
        });
        if (is) tell(name);
    });
}

function needsPanel(it, signal) {
    const kinds = KINDS.map(([kind, title]) => [title, entries(own(it.row.manifest, kind))]).filter(([, rows]) => rows.length);
    const panel = element('div', {}, ...kinds.map(([title, rows]) => {
        const list = element('ul', { class: 'plain needs', role: 'list' });
        const made = ([name, range]) => dependencyRow(name, range, session.levels.has(name));
        return part(title, ...some(rows, ITEMS, list, made, 'dependency', 'dependencies'));
    }));
    if (!kinds.length) panel.append(note('It needs no other package.'));
    const tell = (name) => panel.querySelectorAll('[data-dependency]').forEach((row) => {
        if (row.dataset.dependency === name) row.querySelector('.who').replaceChildren(link(routeOf(name), name));
    });
    lookUp([...new Set(kinds.flatMap(([, rows]) => rows.slice(0, ITEMS).map(([name]) => name)))], signal, tell).catch(() => {});
    if (session.user) panel.append(neededBy(it, signal));
    return [panel];
}

// What needs the package, of the caller's own list: each one's latest version is read, when somebody asks.
function neededBy(it, signal) {
    const names = [...session.levels.keys()].filter((name) => name !== it.name).slice(0, ROWS);
    const list = element('ul', { class: 'plain', role: 'list' });
    const state = element('p', { class: 'quiet', role: 'status' });
    const begin = async () => {
        go.remove();
        let read = 0;
        const look = async (name) => {
            const detail = await detailOf(name, signal).catch((error) => {
                if (error instanceof Refusal && [404, 'large'].includes(error.status)) return null;
                throw error;
            });
            if (detail?.needs.has(it.name)) list.append(element('li', {}, link(routeOf(name), visible(name))));
            read += 1;
            if (read % 20 === 0) state.textContent = `${read} of ${names.length} read …`;
        };
        try {
            await each(names, look, DETAILS_AT_ONCE);
            state.textContent = list.childElementCount ? '' : 'None of your packages needs it.';
        } catch (error) {
            if (!signal.aborted) state.textContent = linesOf(error).join(' ');
        }
    };
    const go = button(`Look through your ${count(names.length, 'other package')}`, begin);
    return part('Needed by', names.length ? go : note('You have no other package.'), list, state);
}

// ---- who may read and publish a package

const RIGHTS = { write: 'may publish', read: 'may read' };
const ROLES = ['owner', 'admin', 'developer'];

const person = (name, about) => element('li', {}, element('span', { class: 'who' }, textOf(name, 64)), ' ', quiet(about));

function maintainersOf(packument) {
    return items(own(packument, 'maintainers')).map(peopleOf).filter(Boolean);
}

function membersIn(value) {
    const rows = entries(value).filter(([, role]) => ROLES.includes(role));
    return rows.sort(([one, first], [other, second]) => ROLES.indexOf(first) - ROLES.indexOf(second) || order(one, other));
}

// The names of an organisation's teams, without it.
function teamsIn(value, org) {
    return items(value).filter((team) => typeof team === 'string').map((team) => team.replace(`${org}:`, '')).sort(order);
}

const rightOf = (level) => quiet(RIGHTS[level]);

async function grantsOn(it, teams, list, signal) {
    const granted = new Map();
    await each(teams, async (team) => {
        const level = own(await ask(paths.teamPackages(it.scope, team), signal), it.name);
        if (RIGHTS[level]) granted.set(team, level);
    });
    list.append(...teams.filter((team) => granted.has(team)).map((team) =>
        element('li', {}, element('span', { class: 'who' }, 'team ', link(`#/@${it.scope}`, textOf(team, 64))), ' ', rightOf(granted.get(team)))));
}

async function scopedAccess(it, panel, signal) {
    const [members, teams] = await Promise.all([ask(paths.members(it.scope), signal), ask(paths.teams(it.scope), signal)]);
    const list = element('ul', { class: 'plain', role: 'list' });
    const names = teamsIn(teams, it.scope);
    const heads = membersIn(members).filter(([, role]) => role !== 'developer');
    list.append(...heads.slice(0, ITEMS).map(([name, role]) => person(name, `${role} of ${it.scope}, may publish`)));
    await grantsOn(it, names.slice(0, TEAMS), list, signal);
    panel.replaceChildren(list);
    const more = names.length - TEAMS;
    if (more > 0) panel.append(note(`${it.scope} has ${count(more, 'more team')}: `, link(`#/@${it.scope}`, 'see all')));
}

function accessPanel(it, signal) {
    const about = it.isOpen ? 'It is public: whoever reaches this registry may read it.' : 'It is restricted: nobody else may know of it.';
    const panel = element('div', {});
    if (!it.scope) {
        const list = element('ul', { class: 'plain', role: 'list' });
        const made = (name) => person(name, 'maintainer, may publish');
        panel.append(...some(maintainersOf(it.packument), ITEMS, list, made, 'maintainer'));
    } else if (!session.user) {
        panel.append(note(`Members of ${it.scope} see here who may publish it. Sign in to see it.`));
    } else {
        panel.append(note('Asking …'));
        scopedAccess(it, panel, signal).catch((error) => {
            if (signal.aborted) return;
            const hidden = note(`Only members of ${it.scope} see who may publish it.`);
            panel.replaceChildren(error.status === 403 ? hidden : noticeOf(error));
        });
    }
    return [element('p', {}, about), panel];
}

// ---- README: as Markdown that a worker reads and DOMPurify cleans, or as text

const TAGS_OF_README = ['a', 'b', 'blockquote', 'br', 'code', 'dd', 'del', 'details', 'div', 'dl', 'dt', 'em', 'h1', 'h2', 'h3', 'h4', 'h5', 'h6',
    'hr', 'i', 'ins', 'kbd', 'li', 'ol', 'p', 'pre', 's', 'samp', 'span', 'strong', 'sub', 'summary', 'sup', 'table', 'tbody', 'td', 'th', 'thead',
    'tr', 'ul'];
const CLEAN = {
    RETURN_DOM_FRAGMENT: true, ALLOWED_TAGS: TAGS_OF_README, ALLOWED_ATTR: ['href', 'start', 'colspan', 'rowspan'],
    ALLOW_DATA_ATTR: false, ALLOW_ARIA_ATTR: false,
};

const plainOf = (text) => String(text).replace(/[&<>"']/g, (mark) => `&#${mark.codePointAt(0)};`);

// HTML within Markdown: the tags of the list stay, without attributes, and no other tag does.
function bareTags(html) {
    return html.replace(/<!--.*?-->/gs, '').replace(/<(\/?)([a-z][a-z0-9]*)\b[^<>]*>|[<>]/gi, (all, slash, name) => {
        if (!name) return plainOf(all);
        return TAGS_OF_README.includes(name.toLowerCase()) ? `<${slash}${name}>` : '';
    });
}

// In the worker: it says that it is ready, Markdown comes, and HTML goes, or null. Images become their
// texts, since nothing else is asked for.
async function readMarkdown() {
    const isLoaded = await import('./marked.js').then(() => true, () => false);
    if (!isLoaded) return postMessage({ html: null });
    const { marked } = globalThis;
    const image = (_, title, text) => plainOf(text || title || '');
    marked.use({ gfm: true, headerIds: false, mangle: false, renderer: { html: bareTags, image } });
    onmessage = ({ data }) => postMessage({ html: shortHtml(() => marked.parse(data)) });
    return postMessage({ isReady: true });
}

function shortHtml(made) {
    try {
        const html = made();
        return (html.match(/</g) ?? []).length > MARKDOWN_TAGS ? null : html;
    } catch {
        return null;
    }
}

const policy = globalThis.trustedTypes?.createPolicy('page', { createScriptURL: () => new URL('page.js', import.meta.url).href });

// HTML of Markdown, or null: where the library is missing, it takes too long, or there is too much of it.
function htmlOf(markdown, signal) {
    return new Promise((done) => {
        const worker = new Worker(policy ? policy.createScriptURL('') : new URL('page.js', import.meta.url), { type: 'module' });
        const end = (html = null) => {
            clearTimeout(limit);
            worker.terminate();
            done(html);
        };
        const begin = () => {
            clearTimeout(limit);
            limit = setTimeout(end, MARKDOWN_TIME);
            worker.postMessage(markdown);
        };
        let limit = setTimeout(end, PATIENCE);
        signal.addEventListener('abort', () => end());
        worker.onmessage = ({ data }) => (data.isReady ? begin() : end(data.html));
        worker.onerror = () => end();
    });
}

// A title of a README, below the page's own. An empty one is left out.
function titleOf(title) {
    const level = Number(title.tagName[1]);
    const attributes = { class: `title-${level}`, tabindex: '-1', 'data-slug': slugOf(title.textContent) };
    return title.textContent.trim() ? [element(`h${Math.min(6, level + 2)}`, attributes, ...title.childNodes)] : [];
}

// A link of a README: to the web, to a title, or none.
function linkOf(anchor, place) {
    const href = anchor.getAttribute('href') ?? '';
    const address = webAddress(href);
    const text = shortened(anchor.textContent.trim(), 500);
    if (text && address) return [outside(address, text)];
    if (text && href.startsWith('#')) return [element('a', { href: '#', onclick: (event) => toTitle(event, href.slice(1), place) }, text)];
    return anchor.childNodes;
}

// What is wider than the page is moved by itself, also by keys.
function wideTable(table) {
    return element('div', { class: 'wide', tabindex: '0', role: 'group', 'aria-label': 'Table' }, table.cloneNode(true));
}

// Titles, links and tables are made anew.
function settled(fragment, place) {
    const all = (selector, made) => fragment.querySelectorAll(selector).forEach((it) => it.replaceWith(...made(it)));
    all('h1, h2, h3, h4, h5, h6', titleOf);
    all('a', (anchor) => linkOf(anchor, place));
    all('table', (table) => [wideTable(table)]);
    fragment.querySelectorAll('pre').forEach((it) => { it.tabIndex = 0; });
    return fragment;
}

const slugOf = (text) => text.trim().toLowerCase().replace(/[^\p{L}\p{N}\- _]/gu, '').replaceAll(' ', '-');

function toTitle(event, slug, place) {
    event.preventDefault();
    const title = [...place.querySelectorAll('[data-slug]')].find((it) => it.dataset.slug === decoded(slug).toLowerCase());
    title?.focus();
    title?.scrollIntoView();
}

function decoded(text) {
    try {
        return decodeURIComponent(text);
    } catch {
        return '';
    }
}

// The sanitizer of Debian 12 (2.4.1+dfsg+~2.4.0-2+deb12u1) fails unless there is a variable of this name: it
// reads one of another function of its own.
globalThis.shadowNode ??= {};

// What is left of HTML, or null where there is no sanitizer, or it fails. References to characters are
// characters by then.
function cleaned(html) {
    try {
        const fragment = globalThis.DOMPurify.sanitize(html, CLEAN);
        const texts = document.createTreeWalker(fragment, NodeFilter.SHOW_TEXT);
        while (texts.nextNode()) texts.currentNode.data = visible(texts.currentNode.data);
        return fragment;
    } catch {
        return null;
    }
}

async function readmeNode({ text, file }, signal) {
    const plain = visible(shortened(text, LARGEST_README)).split('\n', README_LINES).join('\n');
    const isMarkdown = !file || /\.(md|markdown|mdown)$/i.test(file);
    const html = isMarkdown && globalThis.DOMPurify?.isSupported ? await htmlOf(plain, signal) : null;
    const clean = html === null ? null : cleaned(html);
    if (clean === null) return element('pre', { class: 'readme-text', tabindex: '0' }, plain);
    const place = element('div', { class: 'readme', dir: 'auto' });
    place.append(settled(clean, place));
    return place;
}

// ---- README out of an archive, where the manifest has none

// Bytes of a stream, as many as are asked for.
class Bytes {
    constructor(pieces) {
        Object.assign(this, { pieces, rest: new Uint8Array(0) });
    }

    // Fewer come only at the end.
    async take(length, isKept = true) {
        const kept = [];
        let left = length;
        while (left > 0) {
            if (!this.rest.length) {
                const { done, value } = await this.pieces.next();
                if (done) break;
                this.rest = value;
            }
            const piece = this.rest.subarray(0, left);
            if (isKept) kept.push(piece);
            this.rest = this.rest.subarray(piece.length);
            left -= piece.length;
        }
        return new Uint8Array(await new Blob(kept).arrayBuffer());
    }
}

const wordOf = (bytes) => new TextDecoder().decode(bytes).replace(/\0.*$/s, '');

// The first README at the top of an archive. Its folder may have any name.
async function readmeIn(bytes) {
    for (;;) {
        const head = await bytes.take(512);
        const name = wordOf(head.subarray(0, 100));
        const size = parseInt(wordOf(head.subarray(124, 136)).trim(), 8);
        if (head.length < 512 || !name || !(size >= 0)) return null;
        const isFile = head[156] === 0 || head[156] === 48;
        if (isFile && /^(\.\/)?[^/]+\/readme(\.(md|markdown|mdown|txt))?$/i.test(name)) {
            const text = new TextDecoder().decode(await bytes.take(Math.min(size, LARGEST_README * 2)));
            return { text, file: name };
        }
        await bytes.take(Math.ceil(size / 512) * 512, false);
    }
}

async function readmeOfArchive(response) {
    const unpacked = response.body.pipeThrough(new DecompressionStream('gzip'));
    const pieces = piecesOf(unpacked, LARGEST_ARCHIVE);
    try {
        return await readmeIn(new Bytes(pieces));
    } catch {
        return null;
    } finally {
        pieces.return().catch(() => {});
    }
}

async function readmeOf(it, signal) {
    const text = own(it.row.manifest, 'readme');
    if (typeof text === 'string' && text.trim() && text !== NO_README) return { text, file: textOf(own(it.row.manifest, 'readmeFilename'), 100) };
    return ask(paths.archive(it.name, it.row.version), signal, readmeOfArchive);
}

function readmePanel(it, signal) {
    const panel = element('div', {}, note('Reading …'));
    readmeOf(it, signal)
        .then((readme) => (readme?.text.trim() ? readmeNode(readme, signal) : note('This version has no README.')))
        .then((node) => panel.replaceChildren(node))
        .catch((error) => {
            if (!signal.aborted) panel.replaceChildren(noticeOf(error));
        });
    return [panel];
}

// ---- tabs

function tabKeys(event, tabs) {
    const at = tabs.indexOf(document.activeElement);
    const to = { ArrowRight: at + 1, ArrowLeft: at - 1, Home: 0, End: tabs.length - 1 }[event.key];
    if (to === undefined || at < 0) return;
    event.preventDefault();
    const next = tabs[(to + tabs.length) % tabs.length];
    next.focus();
    next.click();
}

// Each panel is made when it is first opened.
function tabbed(label, parts) {
    const panels = parts.map(({ id }) => element('div', { role: 'tabpanel', id: `panel-${id}`, 'aria-labelledby': `tab-${id}`, hidden: true }));
    const choose = (chosen) => tabs.forEach((tab, at) => {
        const is = at === chosen;
        tab.setAttribute('aria-selected', String(is));
        tab.tabIndex = is ? 0 : -1;
        panels[at].hidden = !is;
        if (is && !panels[at].childNodes.length) panels[at].append(element('h2', { class: 'unseen' }, parts[at].title), ...parts[at].made());
    });
    const tabs = parts.map(({ id, title, number }, at) => {
        const attributes = { type: 'button', role: 'tab', id: `tab-${id}`, 'aria-controls': `panel-${id}`, onclick: () => choose(at) };
        return element('button', attributes, title, number === undefined ? null : element('span', { class: 'tab-number' }, number.toLocaleString('en')));
    });
    choose(0);
    return [element('div', { role: 'tablist', 'aria-label': label, onkeydown: (event) => tabKeys(event, tabs) }, ...tabs), ...panels];
}

// ---- the view of a package

function warningOf(it) {
    const message = deprecationOf(it.row.manifest);
    return message ? element('p', { class: 'notice deprecated' }, strong('This version is deprecated. '), message) : null;
}

function otherVersion(it) {
    if (it.isLatest || !it.latest) return null;
    return element('p', { class: 'notice' }, 'This is not the latest version. ', link(routeOf(it.name), `See ${textOf(it.latest, 60)}`), '.');
}

function headOf(it) {
    const level = session.levels.get(it.name);
    const description = textOf(own(it.row.manifest, 'description'), 500);
    const published = quiet('published ', timeOf(it.row.time), it.row.moment ? `, ${agoOf(it.row.moment)}` : null);
    return [
        element('h1', { tabindex: '-1' }, element('span', { class: 'long' }, it.name), ' ', element('span', { class: 'number' }, textOf(it.row.version, 60))),
        element('p', { class: 'badges' }, tagBadges(it, it.row.version), statusBadge(it.isOpen), level ? levelBadge(level) : null, published),
        description ? element('p', { class: 'lead' }, description) : null,
        warningOf(it), otherVersion(it)];
}

function installOf(it) {
    return element('section', { class: 'install' }, element('h2', {}, 'Install'),
        toCopy(installLine(it.name, it.row.version, it.isLatest), 'command to install'),
        setUp([it.scope], Boolean(session.user) || !it.isOpen));
}

function packageView(it, signal) {
    const needs = KINDS.reduce((sum, [kind]) => sum + entries(own(it.row.manifest, kind)).length, 0);
    return element('article', { class: 'package' }, crumbs(it.scope), headOf(it), installOf(it),
        element('div', { class: 'columns' },
            element('div', { class: 'wide-column' }, ...tabbed('About the package', [
                { id: 'readme', title: 'README', made: () => readmePanel(it, signal) },
                { id: 'versions', title: 'Versions', number: it.versions.length, made: () => versionsPanel(it) },
                { id: 'needs', title: 'Dependencies', number: needs, made: () => needsPanel(it, signal) },
                { id: 'access', title: 'Access', made: () => accessPanel(it, signal) },
            ])),
            element('aside', { 'aria-label': 'Facts' }, factsList(it), it.tags.length ? tagList(it) : null)));
}

function crumbs(scope) {
    return element('nav', { class: 'crumbs', 'aria-label': 'Where you are' },
        link('#/', session.user ? 'Your packages' : 'Packages'), scope ? [' / ', link(`#/@${scope}`, `@${scope}`)] : null);
}

async function showPackage(place, name, version, signal) {
    document.title = `${name} · ${location.host}`;
    const [isOpen, packument] = await Promise.all([isPublic(name, signal), ask(paths.package(name), signal)]);
    const [versions, tags] = [versionsOf(packument), tagsOf(packument)];
    const latest = tags.find(([tag]) => tag === 'latest')?.[1];
    const row = versions.find((it) => it.version === (version || latest)) ?? (version ? null : versions[0]);
    if (!row) throw new Refusal(versions.length ? 404 : 'form');
    const it = { name, scope: scopeOf(name), packument, isOpen, versions, tags, latest, row, isLatest: row.version === latest };
    place.replaceChildren(packageView(it, signal));
}

// ---- an organisation

// A table of two columns, some rows at a time.
function tableOf(heads, list, cells, one) {
    const body = element('tbody');
    const row = (it) => {
        const [first, second] = cells(it);
        return element('tr', {}, element('th', { scope: 'row' }, first), element('td', {}, second));
    };
    const [, more] = some(list, VERSIONS, body, row, one);
    const head = element('thead', {}, element('tr', {}, heads.map((it) => element('th', { scope: 'col' }, it))));
    return [element('table', { class: 'pairs' }, head, body), more];
}

async function fillTeam(org, team, place, signal) {
    try {
        const [users, grants] = await Promise.all([ask(paths.teamMembers(org, team), signal), ask(paths.teamPackages(org, team), signal)]);
        const names = items(users).filter((it) => typeof it === 'string').sort(order);
        const granted = [...levelsIn(grants)];
        const shown = names.slice(0, VERSIONS).map((it) => textOf(it, 64)).join(', ') || 'nobody';
        const cells = ([name, level]) => [grantedName(name), RIGHTS[level]];
        place.replaceChildren(element('p', {}, quiet(`${count(names.length, 'member')}: `), shown, names.length > VERSIONS ? ' …' : ''),
            ...granted.length ? tableOf(['Granted package', 'Its members'], granted, cells, 'package') : [note('It is granted no package.')]);
    } catch (error) {
        if (!signal.aborted) place.replaceChildren(noticeOf(error, () => fillTeam(org, team, place, signal)));
    }
}

// A member may see that a team is granted a package which the member may not read. Then there is no link.
const grantedName = (name) => (session.levels.has(name) ? link(routeOf(name), name) : element('span', { class: 'who' }, textOf(name, 214)));

function teamNode(org, team, signal) {
    const place = element('div', { class: 'team-body' }, note('Asking …'));
    const fill = () => {
        node.removeEventListener('toggle', fill);
        return fillTeam(org, team, place, signal);
    };
    const node = element('details', { class: 'team', ontoggle: fill }, element('summary', {}, element('h3', {}, textOf(team, 64))), place);
    return node;
}

function orgView(org, [members, teams, packages], signal) {
    const rows = membersIn(members);
    const names = teamsIn(teams, org);
    const levels = levelsIn(packages);
    const place = element('div', { class: 'teams' });
    const list = () => [levels.size ? packageList(levels, 'org-filter', signal) : note('There is no package that you may read.')];
    const table = () => tableOf(['Member', 'Role'], rows, ([name, role]) => [textOf(name, 64), role], 'member');
    return element('article', { class: 'org' },
        crumbs(''),
        element('h1', { tabindex: '-1' }, `@${org}`),
        note(`${count(rows.length, 'member')}, ${count(names.length, 'team')}, and ${count(levels.size, 'package')} that you may read`),
        ...tabbed('About the organisation', [
            { id: 'packages', title: 'Packages', number: levels.size, made: list },
            { id: 'members', title: 'Members', number: rows.length, made: table },
            { id: 'teams', title: 'Teams', number: names.length, made: () => some(names, ITEMS, place, (team) => teamNode(org, team, signal), 'team') },
        ]));
}

async function showOrg(place, org, signal) {
    document.title = `@${org} · ${location.host}`;
    if (!session.user) throw new Refusal('nobody');
    const answers = await Promise.all([paths.members, paths.teams, paths.orgPackages].map((path) => ask(path(org), signal)));
    place.replaceChildren(orgView(org, answers, signal));
}

// ---- which view is shown

let view = new AbortController();

// The part of an address after #: a package, one of its versions, or an organisation.
function routeIn(hash) {
    const parts = decoded(hash.replace(/^#\/?/, '')).split('/').filter(Boolean);
    const name = parts[0]?.startsWith('@') ? parts.splice(0, 2).join('/') : parts.shift() ?? '';
    return { name, version: parts.shift() ?? '', isWhole: !parts.length };
}

// Refusals after which the same request is refused again.
const FINAL = [400, 401, 403, 404, 'nobody'];

// Where a token would help, there is a field for it.
function fieldFor(status) {
    if (session.user || ![401, 404, 'nobody'].includes(status)) return null;
    return section(status === 404 ? 'Does your team have it?' : 'Sign in', signInForm('token', show));
}

// A line for a refusal, in place of the view.
function failed(place, name, error) {
    place.replaceChildren(element('article', {}, crumbs(''), element('h1', { tabindex: '-1' }, element('span', { class: 'long' }, textOf(name, 214))),
        noticeOf(error, FINAL.includes(error.status) ? null : show), fieldFor(error.status)));
}

async function showRoute(place, { name, version, isWhole }, signal) {
    const isOrg = name.startsWith('@') && !name.includes('/');
    try {
        if (nameIn(name) !== name || !isWhole || (isOrg && version)) throw new Refusal(400);
        await (isOrg ? showOrg(place, name.slice(1), signal) : showPackage(place, name, version, signal));
    } catch (error) {
        if (signal.aborted) return;
        if (error.status === 401 && token) signOut('Your token isn’t known any more.');
        failed(place, name, error);
    }
}

async function show() {
    view.abort();
    view = new AbortController();
    const { signal } = view;
    const place = byId('main');
    if (home.view?.isConnected) home.scroll = scrollY;
    const route = routeIn(location.hash);
    byId('session').hidden = !session.user && !route.name;
    if (!route.name) return showHome(place)?.focus({ preventScroll: true });
    place.setAttribute('aria-busy', 'true');
    const wait = setTimeout(() => {
        if (!signal.aborted) place.replaceChildren(element('p', { class: 'quiet wait', role: 'status' }, 'Asking the registry …'));
    }, 150);
    await showRoute(place, route, signal);
    clearTimeout(wait);
    if (signal.aborted) return undefined;
    place.removeAttribute('aria-busy');
    scrollTo(0, 0);
    return place.querySelector('h1')?.focus({ preventScroll: true });
}

function begin() {
    byId('house').textContent = location.host;
    byId('skip').addEventListener('click', (event) => {
        event.preventDefault();
        byId('main').focus();
    });
    addEventListener('hashchange', show);
    history.scrollRestoration = 'manual';
    showSession();
    show();
}

if (globalThis.document) begin();
else readMarkdown();

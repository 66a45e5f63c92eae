// The text of show as rows that fold by their levels: two spaces are one level. Every row is a line as `show --values` prints
// it, so that what is selected or found in the page is that text.

// What lies deeper than this is moved no further to the right, on a wide screen and on a narrow one.
const DEEPEST = 24;
const DEEPEST_NARROW = 6;

class Tree {
    constructor(lines, meanings) {
        this.box = element("div", "tree");
        this.box.setAttribute("role", "tree");
        this.box.setAttribute("aria-label", "Contents of the stream");
        this.rows = lines.map((line, number) => this.row(line, meanings[number]));
        this.rows.forEach((row, number) => {
            const next = this.rows[number + 1];
            if (next && next.level > row.level) {
                row.isOpen = true;
                row.at.setAttribute("aria-expanded", "true");
            }
        });
        this.box.append(...this.rows.map((row) => row.at));
        this.deepest = this.rows.reduce((most, row) => Math.max(most, row.level), 0);
        this.focused = this.rows[0] ?? null;
        if (this.focused) {
            this.focused.at.tabIndex = 0;
        }
        this.box.addEventListener("click", (event) => this.clicked(event));
        this.box.addEventListener("keydown", (event) => this.pressed(event));
    }

    row(line, meaning) {
        const spaces = line.length - line.trimStart().length;
        const level = spaces / 2;
        const at = element("div", "line");
        at.setAttribute("role", "treeitem");
        at.setAttribute("aria-level", String(level + 1));
        at.tabIndex = -1;
        const shown = Math.min(level, narrow.matches ? DEEPEST_NARROW : DEEPEST);
        at.style.setProperty("--level", String(shown));
        at.append(element("span", "hidden-indent", " ".repeat(spaces - 2 * shown)), " ".repeat(2 * shown) + line.slice(spaces));
        if (meaning) {
            at.append(element("span", "meaning", ` (${meaning})`));
        }
        return { at, level, isOpen: null };
    }

    /** Opens or closes a row that has others below it. */
    set(row, isOpen) {
        if (row.isOpen !== null && row.isOpen !== isOpen) {
            row.isOpen = isOpen;
            row.at.setAttribute("aria-expanded", String(isOpen));
        }
    }

    /** Closes what lies at this level, and opens what lies higher. */
    foldTo(level) {
        for (const row of this.rows) {
            this.set(row, row.level < level);
        }
        this.show();
    }

    /** Hides the rows below closed ones. */
    show() {
        let closed = Infinity;
        for (const row of this.rows) {
            const isShown = row.level <= closed;
            row.at.hidden = !isShown;
            if (isShown) {
                closed = row.isOpen === false ? row.level : Infinity;
            }
        }
        if (this.focused && this.focused.at.hidden) {
            this.focus(this.parentOf(this.focused), false);
        }
    }

    /** The nearest shown row before it that lies higher; itself where it is at the top. */
    parentOf(row) {
        const before = this.rows.slice(0, this.rows.indexOf(row)).reverse();
        return before.find((it) => it.level < row.level && !it.at.hidden) ?? row;
    }

    focus(row, moves = true) {
        this.focused.at.tabIndex = -1;
        this.focused = row;
        row.at.tabIndex = 0;
        if (moves) {
            row.at.focus();
        }
    }

    toggle(row) {
        this.set(row, !row.isOpen);
        this.show();
    }

    clicked(event) {
        const row = this.rows.find((it) => it.at === event.target.closest(".line"));
        if (row && getSelection().isCollapsed) {
            this.focus(row);
            this.toggle(row);
        }
    }

    /** The keys of a tree, by the ARIA Authoring Practices. */
    pressed(event) {
        const shown = this.rows.filter((row) => !row.at.hidden);
        const number = shown.indexOf(this.focused);
        const row = this.focused;
        const moves = {
            ArrowDown: () => this.focus(shown[Math.min(number + 1, shown.length - 1)]),
            ArrowUp: () => this.focus(shown[Math.max(number - 1, 0)]),
            Home: () => this.focus(shown[0]),
            End: () => this.focus(shown.at(-1)),
            ArrowRight: () => (row.isOpen === false ? this.toggle(row) : row.isOpen && this.focus(shown[number + 1])),
            ArrowLeft: () => (row.isOpen ? this.toggle(row) : this.focus(this.parentOf(row))),
            Enter: () => this.toggle(row),
            " ": () => this.toggle(row),
        };
        if (moves[event.key] && !event.ctrlKey && !event.metaKey && !event.altKey) {
            event.preventDefault();
            moves[event.key]();
        }
    }
}

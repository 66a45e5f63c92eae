// Many things, of which a part is shown at once, with buttons for the parts before and behind.

/**
 * A box with at most `most` of `count` things, from the one with the number `start` on. `part` makes an element of those from one
 * number to another; `what` names them; `turned` is told where a part begins.
 */
function paged({ count, most, what, part, start = 0, turned = () => {} }) {
    const box = element("div");
    const row = element("p", "pages");
    const place = element("span");
    let first = start < count ? start - (start % most) : 0;
    const show = () => {
        const end = Math.min(first + most, count);
        place.textContent = `${what} ${(first + 1).toLocaleString("en")} to ${end.toLocaleString("en")} of ${count.toLocaleString("en")}. `;
        back.hidden = first === 0;
        next.hidden = end === count;
        box.replaceChildren(part(first, end), ...(count > most ? [row] : []));
    };
    const turn = (by) => {
        first += by;
        turned(first);
        show();
    };
    const back = button("Back", () => turn(-most));
    const next = button("Next", () => turn(most));
    row.append(place, back, " ", next);
    show();
    return box;
}

// Elements. What a stream says goes into the page as text, never as HTML.

const $ = (id) => document.getElementById(id);

/** An element with a class and a text. */
function element(kind, name = "", text = "") {
    const made = document.createElement(kind);
    if (name) {
        made.className = name;
    }
    made.textContent = text;
    return made;
}

function button(text, pressed) {
    const made = element("button", "", text);
    made.type = "button";
    made.addEventListener("click", pressed);
    return made;
}

const numbered = (count, one, more) => `${count.toLocaleString("en")} ${count === 1 ? one : more}`;

/** Whether the screen is narrow, as page.css has it. */
const narrow = matchMedia("(max-width: 44rem)");

/** The bytes of an element's text in base64. */
const bytesOf64 = (text) => Uint8Array.from(atob(text), (sign) => sign.charCodeAt(0));

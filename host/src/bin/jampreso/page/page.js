// A click on an id, a tree, a time or a parent shows the bytes that it was read from: in the file's bar, and as numbers below.
"use strict";
const LINE = 16;
const panel = document.getElementById("bytes");

document.addEventListener("click", (event) => {
    const button = event.target.closest("button[data-at]");
    if (button) point(button);
});

function point(button) {
    document.querySelectorAll(".here").forEach((old) => old.remove());
    document.querySelectorAll(".chosen").forEach((old) => old.classList.remove("chosen"));
    button.classList.add("chosen");
    const at = Number(button.dataset.at), size = Number(button.dataset.size);
    const bar = document.querySelector(`.bar[data-file="${button.dataset.file}"]`);
    const mark = document.createElement("i");
    mark.className = "here";
    mark.style.left = (at / Number(bar.dataset.size)) * 100 + "%";
    mark.style.width = (size / Number(bar.dataset.size)) * 100 + "%";
    bar.append(mark);
    tell(button, at, size, bar.cloneNode(true));
}

function tell(button, at, size, copy) {
    const head = document.createElement("div");
    head.textContent = `file ${button.dataset.file}, bytes ${at} to ${at + size - 1}: ${button.title}`;
    const text = document.createElement("pre");
    const bytes = button.dataset.hex.match(/../g) || [];
    bytes.forEach((byte, k) => {
        const place = Number(button.dataset.from) + k;
        if (place % LINE === 0) text.append((k ? "\n" : "") + String(place).padStart(10) + "  ");
        const here = place >= at && place < at + size;
        const part = document.createElement(here ? "mark" : "span");
        part.textContent = byte;
        text.append(part, " ");
    });
    copy.className = "bar copy";
    copy.removeAttribute("data-file");
    panel.replaceChildren(head, copy, text);
}

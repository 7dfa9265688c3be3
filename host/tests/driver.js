// Clicks every parent and writes down what lights up, and how wide each part of each bar is.
const lines = [];
for (const button of document.querySelectorAll("button.parent")) {
    button.click();
    const marks = [...document.querySelectorAll("#bytes mark")].map((m) => m.textContent).join("");
    const here = document.querySelectorAll("article .here"), bar = here[0].parentElement;
    const box = bar.getBoundingClientRect(), spot = here[0].getBoundingClientRect();
    const inside = spot.width >= 4 && spot.right > box.left && spot.left < box.right && here.length === 1;
    const start = Math.round(((spot.left - box.left) / box.width) * Number(bar.dataset.size));
    const position = button.textContent.split(" ")[0];
    lines.push(["parent", bar.dataset.file, button.dataset.at, marks, position, inside, start, bar.dataset.size].join(" "));
}
for (const part of document.querySelectorAll("article .bar b")) {
    const bar = part.parentElement, share = part.getBoundingClientRect().width / bar.clientWidth;
    lines.push(["part", bar.dataset.file, part.className.split(" ")[0], Math.round(share * Number(bar.dataset.size))].join(" "));
}
for (const hurt of document.querySelectorAll("article .bar .hurt")) {
    lines.push(["hurt", hurt.parentElement.dataset.file, hurt.title].join(" "));
}
const answer = document.createElement("pre");
answer.id = "answer";
answer.textContent = "ANSWER\n" + lines.join("\n") + "\nEND";
document.body.append(answer);

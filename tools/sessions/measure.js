// The boxes of all texts of each framed page, and which of them lie over each other, as JSON in the document.
const textBoxes = (document) => {
  const boxes = [], walker = document.createTreeWalker(document.body, NodeFilter.SHOW_TEXT);
  while (walker.nextNode()) {
    const node = walker.currentNode, parent = node.parentElement, range = document.createRange();
    const isUnseen = ["title", "style", "script"].includes(parent.tagName.toLowerCase());
    if (!node.data.trim() || isUnseen) continue;
    range.selectNodeContents(node);
    const isDrawn = parent.closest("svg") !== null;
    const rects = isDrawn ? [parent.getBoundingClientRect()] : [...range.getClientRects()];
    for (const { left, top, right, bottom } of rects) {
      boxes.push({ left, top, right, bottom, words: node.data.slice(0, 40) });
    }
  }
  return boxes;
};

const overlaps = (boxes) => {
  const found = [];
  boxes.forEach((a, i) => boxes.slice(i + 1).forEach((b) => {
    const wide = Math.min(a.right, b.right) - Math.max(a.left, b.left);
    const high = Math.min(a.bottom, b.bottom) - Math.max(a.top, b.top);
    if (wide > 1.5 && high > 1.5) found.push(`${a.words} | ${b.words}`);
  }));
  return found;
};

onload = () => {
  const measured = [...document.querySelectorAll("iframe")].map((frame) => {
    const inner = frame.contentDocument, boxes = textBoxes(inner);
    const width = frame.clientWidth, page = inner.documentElement.scrollWidth;
    return { name: frame.title, texts: boxes.length, page, width, over: overlaps(boxes) };
  });
  const output = document.createElement("output");
  output.textContent = JSON.stringify(measured);
  document.body.replaceChildren(output);
};

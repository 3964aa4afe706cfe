
"use strict";
(() => {
  // Below this scale the letters of the whole drawing are too small to read, and its building is shown first.
  const READABLE = 0.7;
  const stage = document.getElementById("stage");
  const detail = document.getElementById("detail");
  const fold = document.getElementById("fold");
  const folded = document.getElementById("folded");
  const plain = stage.innerHTML;
  let svg, box, grip = null;

  const numbers = (text) => text.trim().split(/[\s,]+/).map(Number);
  const show = (next) => {
    box = next;
    svg.setAttribute("viewBox", box.map((n) => Number(n.toFixed(2))).join(" "));
  };
  const view = (name) => {
    const part = name === "whole" ? null : svg.querySelector("#" + name);
    return part ? numbers(part.getAttribute("viewBox")) : svg.whole;
  };
  const scale = (of) => Math.min(stage.clientWidth / of[2], stage.clientHeight / of[3]);

  // Puts a drawing on the stage; its titles become details.
  const put = (drawing) => {
    stage.innerHTML = drawing;
    svg = stage.querySelector("svg");
    svg.whole = numbers(svg.getAttribute("viewBox"));
    for (const title of svg.querySelectorAll("title")) {
      title.parentNode.dataset.tip = title.textContent;
      title.remove();
    }
    show(view(scale(svg.whole) < READABLE ? "building" : "whole"));
  };
  const choose = () => put(fold && fold.checked ? folded.innerHTML : plain);

  // The point of the drawing under a point of the window.
  const under = (x, y) => new DOMPoint(x, y).matrixTransform(svg.getScreenCTM().inverse());
  const zoom = (by, x, y) => {
    const width = Math.min(Math.max(box[2] * by, svg.whole[2] / 60), svg.whole[2] * 2);
    const factor = width / box[2], at = under(x, y);
    show([at.x - (at.x - box[0]) * factor, at.y - (at.y - box[1]) * factor, width, box[3] * factor]);
  };
  const zoomMiddle = (by) => {
    const room = stage.getBoundingClientRect();
    zoom(by, room.left + room.width / 2, room.top + room.height / 2);
  };
  const move = (x, y) => show([box[0] + x * box[2], box[1] + y * box[3], box[2], box[3]]);

  for (const button of document.querySelectorAll("[data-view]")) {
    button.onclick = () => { window.scrollTo(0, 0); show(view(button.dataset.view)); };
  }
  for (const button of document.querySelectorAll("[data-zoom]")) {
    button.onclick = () => zoomMiddle(button.dataset.zoom === "in" ? 0.8 : 1.25);
  }
  if (fold) fold.onchange = choose;
  stage.addEventListener("wheel", (event) => {
    event.preventDefault();
    zoom(Math.exp(Math.max(-200, Math.min(200, event.deltaY)) * 0.002), event.clientX, event.clientY);
  }, { passive: false });
  stage.addEventListener("pointerdown", (event) => {
    if (event.button !== 0) return;
    grip = under(event.clientX, event.clientY);
    stage.classList.add("moving");
    stage.setPointerCapture(event.pointerId);
  });
  stage.addEventListener("pointermove", (event) => {
    if (!grip) return;
    const at = under(event.clientX, event.clientY);
    show([box[0] + grip.x - at.x, box[1] + grip.y - at.y, box[2], box[3]]);
  });
  const release = () => { grip = null; stage.classList.remove("moving"); };
  stage.addEventListener("pointerup", release);
  stage.addEventListener("pointercancel", release);
  stage.addEventListener("dblclick", () => show(svg.whole));
  const keys = {
    "+": () => zoomMiddle(0.8), "=": () => zoomMiddle(0.8), "-": () => zoomMiddle(1.25), "0": () => show(svg.whole),
    ArrowLeft: () => move(-0.1, 0), ArrowRight: () => move(0.1, 0), ArrowUp: () => move(0, -0.1), ArrowDown: () => move(0, 0.1),
  };
  stage.addEventListener("keydown", (event) => {
    if (!keys[event.key] || event.ctrlKey || event.metaKey) return;
    event.preventDefault();
    keys[event.key]();
  });

  // The details of what is under the pointer, beside it and inside of the window.
  document.addEventListener("pointermove", (event) => {
    const at = grip ? null : event.target.closest("[data-tip]");
    detail.hidden = !at;
    if (!at) return;
    detail.textContent = at.dataset.tip;
    const room = detail.getBoundingClientRect();
    const left = Math.min(event.clientX + 14, window.innerWidth - room.width - 4);
    const below = event.clientY + 18;
    const top = below + room.height > window.innerHeight ? event.clientY - room.height - 10 : below;
    detail.style.transform = `translate(${Math.max(left, 4)}px, ${Math.max(top, 4)}px)`;
  });
  document.addEventListener("pointerleave", () => { detail.hidden = true; });
  choose();
})();

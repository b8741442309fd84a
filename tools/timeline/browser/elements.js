"use strict";
// What all pages have in common. What a text says is only ever put into the page as text, never as HTML.
const run = JSON.parse(document.getElementById("run").textContent);
const entries = [...document.querySelectorAll("#events > li")];
const $ = (name) => document.getElementById(name);
let current = -1;
let playing = 0;

function el(name, kind, ...children) {
  const made = document.createElement(name);
  if (kind) made.className = kind;
  made.append(...children.filter((child) => child !== null && child !== ""));
  return made;
}

// Each panel is made again only where its signature is another than when it was made.
const made = new Map();
function panel(name, signature, make) {
  const old = made.get(name);
  if (old && old.signature === signature) return old.node;
  const node = make();
  if (old) old.node.replaceWith(node);
  made.set(name, { signature, node });
  return node;
}

const parts = el("div", ""), side = el("div", "");
parts.id = "parts";
side.id = "side";

// Short words for the nodes of the page.
export const $ = id => document.getElementById(id);

export const element = (tag, words = "", name = "", more = {}) =>
  Object.assign(document.createElement(tag), { textContent: words, className: name, ...more });

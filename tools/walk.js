// What a page shows, as plain facts: the elements that have a box and the lines of their text, in tree order, each with the
// number of the box that it is in. Evaluated in the page; its value is a JSON text. `capture.py` makes the script of it.
(() => {
  const PROPERTIES = [
    'position', 'z-index', 'opacity', 'overflow-x', 'overflow-y', 'display', 'float', 'visibility', 'pointer-events',
    'mix-blend-mode', 'isolation', 'order', 'border-top-width', 'border-right-width', 'border-bottom-width', 'border-left-width',
    'border-top-style', 'border-right-style', 'border-bottom-style', 'border-left-style', 'border-image-source',
    'outline-width', 'outline-style', 'outline-offset', 'background-image', 'background-clip', 'background-blend-mode',
    'border-top-left-radius', 'border-top-right-radius', 'border-bottom-right-radius', 'border-bottom-left-radius',
    'box-shadow', 'text-shadow', 'transform', 'translate', 'rotate', 'scale', 'perspective', 'filter', 'backdrop-filter',
    'clip', 'clip-path', 'mask-image', 'will-change', 'contain', 'container-type', 'appearance', 'border-collapse',
    'list-style-type', 'list-style-image', 'caption-side', 'flex-direction',
  ];
  const COLORS = [
    'background-color', 'border-top-color', 'border-right-color', 'border-bottom-color', 'border-left-color', 'outline-color',
  ];
  const REPLACED = ['img', 'video', 'canvas', 'iframe', 'object', 'embed', 'svg', 'audio', 'meter', 'progress'];
  const CONTROLS = ['input', 'textarea', 'select'];
  const WITHOUT_BOX = ['br', 'wbr'];

  const facts = [];
  const numbers = new Map();

  // a colour as `rgb(..)` or `rgba(..)`, whatever its colour space
  function plainColor(text) {
    if (text.startsWith('rgb')) return text;
    const canvas = document.createElement('canvas');
    canvas.width = canvas.height = 1;
    const context = canvas.getContext('2d');
    context.fillStyle = text;
    context.fillRect(0, 0, 1, 1);
    const [red, green, blue, alpha] = context.getImageData(0, 0, 1, 1).data;
    return `rgba(${red}, ${green}, ${blue}, ${alpha / 255})`;
  }

  function styleOf(computed) {
    const style = {};
    for (const name of PROPERTIES) style[name] = computed.getPropertyValue(name);
    for (const name of COLORS) style[name] = plainColor(computed.getPropertyValue(name));
    return style;
  }

  const edges = (rect) => [rect.left, rect.top, rect.right, rect.bottom];

  function textRects(node) {
    const range = document.createRange();
    range.selectNodeContents(node);
    return Array.from(range.getClientRects(), edges).filter(([left, top, right, bottom]) => left < right && top < bottom);
  }

  // the pseudo-elements that have a box
  function pseudosOf(element, display) {
    const names = ['::before', '::after'].filter((name) => {
      const computed = getComputedStyle(element, name);
      return !['none', 'normal'].includes(computed.content) && computed.display !== 'none';
    });
    return display === 'list-item' ? [...names, '::marker'] : names;
  }

  function kindOf(tag) {
    if (REPLACED.includes(tag)) return 'replaced';
    return CONTROLS.includes(tag) ? 'control' : 'plain';
  }

  const isOnTop = (element) => ['dialog:modal', ':popover-open', ':fullscreen'].some((it) => element.matches(it));

  // the backdrop of an element of the top layer
  function backdropOf(element) {
    const computed = getComputedStyle(element, '::backdrop');
    if (computed.display === 'none') return null;
    return { color: plainColor(computed.backgroundColor), 'pointer-events': computed.pointerEvents };
  }

  function factOf(element, tag, computed, parent) {
    const onTop = isOnTop(element);
    return {
      parent, tag, id: element.id, kind: kindOf(tag), style: styleOf(computed), rects: Array.from(element.getClientRects(), edges),
      pseudos: pseudosOf(element, computed.display), scroll: [element.scrollLeft, element.scrollTop],
      inert: element.closest('[inert]') !== null, onTop, backdrop: onTop ? backdropOf(element) : null,
    };
  }

  // what is in an element, in the order in which it is shown
  function childrenOf(element, computed) {
    if (computed.contentVisibility === 'hidden') return [];
    if (element.localName === 'details' && !element.open) return element.querySelectorAll(':scope > summary:first-of-type');
    if (element.shadowRoot) return element.shadowRoot.childNodes;
    const assigned = element.localName === 'slot' ? element.assignedNodes() : [];
    return assigned.length ? assigned : element.childNodes;
  }

  // what text takes from the element that it is in, which may have no box
  function textStyleOf(computed) {
    const names = ['visibility', 'pointer-events'];
    const style = Object.fromEntries(names.map((name) => [name, computed.getPropertyValue(name)]));
    return { ...style, color: plainColor(computed.getPropertyValue('-webkit-text-fill-color')) };
  }

  function walkText(node, parent, style) {
    const rects = textRects(node);
    if (rects.length) facts.push({ parent, text: true, style, rects });
  }

  function walk(node, parent, textStyle) {
    if (node.nodeType === Node.TEXT_NODE) walkText(node, parent, textStyle);
    if (node.nodeType !== Node.ELEMENT_NODE || WITHOUT_BOX.includes(node.localName)) return;
    const computed = getComputedStyle(node);
    const isContents = computed.display === 'contents';
    if (computed.display === 'none' || (!isContents && !node.checkVisibility())) return;
    let place = parent;
    if (!isContents) {
      place = facts.push(factOf(node, node.localName, computed, parent)) - 1;
      numbers.set(node, place);
    }
    if (!isContents && kindOf(node.localName) !== 'plain') return;
    for (const child of childrenOf(node, computed)) walk(child, place, textStyleOf(computed));
  }

  // the number of the box of an element, or of the nearest one round it that has a box
  function numberOf(element) {
    for (let it = element; it; it = it.parentElement) if (numbers.has(it)) return numbers.get(it);
    return null;
  }

  // for each point of a grid the box that Chromium hits there
  function hits(step) {
    const rows = [];
    for (let y = step >> 1; y < innerHeight; y += step) {
      const row = [];
      for (let x = step >> 1; x < innerWidth; x += step) row.push(numberOf(document.elementFromPoint(x, y)));
      rows.push(row);
    }
    return rows;
  }

  walk(document.documentElement, null, null);
  const page = [document.scrollingElement.scrollLeft, document.scrollingElement.scrollTop];
  return JSON.stringify({ facts, page, hits: hits(STEP) });
})()

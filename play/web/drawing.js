// A drawing surface that writes SVG: it takes the calls of a canvas that the picture makes, so that the picture is drawn by its own code.

/* global Paints, tileSize */

const escaped = text => String(text).replace(/&/g, '&amp;').replace(/</g, '&lt;').replace(/"/g, '&quot;');
const round = number => Math.round(number * 100) / 100;
const measuring = document.createElement('canvas').getContext('2d');

export class Drawing {
  constructor(definitions) {
    Object.assign(this, { definitions, parts: [], path: '', kept: [], x: 0, y: 0, open: 0 });
    Object.assign(this, { fillStyle: '#000', strokeStyle: '#000', lineWidth: 1, font: '12px sans-serif', textAlign: 'left' });
  }

  get text() { return this.parts.join('\n'); }

  save() {
    const { x, y, open, fillStyle, strokeStyle, lineWidth, font, textAlign } = this;
    this.kept.push({ x, y, open, fillStyle, strokeStyle, lineWidth, font, textAlign });
  }

  restore() {
    const kept = this.kept.pop();
    for (; this.open > kept.open; this.open--) this.parts.push('</g>');
    Object.assign(this, kept);
  }

  translate(x, y) { this.x += x; this.y += y; }

  at(x, y) { return round(this.x + x) + ' ' + round(this.y + y); }

  beginPath() { this.path = ''; }
  moveTo(x, y) { this.path += 'M' + this.at(x, y); }
  lineTo(x, y) { this.path += 'L' + this.at(x, y); }
  closePath() { this.path += 'Z'; }
  rect(x, y, width, height) { this.path += 'M' + this.at(x, y) + 'h' + round(width) + 'v' + round(height) + 'h' + round(-width) + 'Z'; }

  // A whole circle: the picture draws no other arcs.
  arc(x, y, radius) {
    const half = 'a' + radius + ' ' + radius + ' 0 1 0 ';
    this.path += 'M' + this.at(x - radius, y) + half + 2 * radius + ' 0' + half + -2 * radius + ' 0';
  }

  fill() { this.parts.push('<path d="' + this.path + '" fill="' + escaped(this.fillStyle) + '"/>'); }

  stroke() { this.parts.push('<path d="' + this.path + '" fill="none" stroke="' + escaped(this.strokeStyle) + '" stroke-width="' + this.lineWidth + '"/>'); }

  clip() {
    const id = 'clip' + this.definitions.length;
    this.definitions.push('<clipPath id="' + id + '"><path d="' + this.path + '"/></clipPath>');
    this.parts.push('<g clip-path="url(#' + id + ')">');
    this.open++;
  }

  box(x, y, width, height, more) {
    const [wide, high] = [width, height].map(length => round(Math.max(0, length)));
    this.parts.push('<rect x="' + round(this.x + x) + '" y="' + round(this.y + y) + '" width="' + wide + '" height="' + high + '" ' + more + '/>');
  }

  fillRect(x, y, width, height) { this.box(x, y, width, height, 'fill="' + escaped(this.fillStyle) + '"'); }

  strokeRect(x, y, width, height) { this.box(x, y, width, height, 'fill="none" stroke="' + escaped(this.strokeStyle) + '" stroke-width="' + this.lineWidth + '"'); }

  measureText(text) {
    measuring.font = this.font;
    return measuring.measureText(text);
  }

  fillText(text, x, y) {
    const [, bold, size] = /^(bold )?([0-9.]+)px/.exec(this.font), anchor = { left: 'start', right: 'end', center: 'middle' }[this.textAlign];
    this.parts.push('<text x="' + round(this.x + x) + '" y="' + round(this.y + y) + '" font-size="' + size + '"' + (bold ? ' font-weight="bold"' : '') +
      (anchor === 'start' ? '' : ' text-anchor="' + anchor + '"') + ' fill="' + escaped(this.fillStyle) + '">' + escaped(text) + '</text>');
  }
}

// The picture's paints, whose patterns are those of SVG.
class DrawnPaints extends Paints {
  constructor(style, definitions) {
    super(style, 1);
    this.definitions = definitions;
  }

  make(c, span) {
    const size = tileSize(span), tile = new Drawing(this.definitions), id = 'pattern' + this.definitions.length;
    this.drawTile(tile, span, size);
    this.definitions.push('<pattern id="' + id + '" width="' + size + '" height="' + size + '" patternUnits="userSpaceOnUse">' + tile.text + '</pattern>');
    return 'url(#' + id + ')';
  }
}

const MOST_HEIGHT = 12000;

// The rows of a chart, for the time that is in view, as the text of an SVG.
export function drawn(chart, title) {
  const definitions = [], paints = new DrawnPaints(getComputedStyle(document.documentElement), definitions), c = new Drawing(definitions);
  const { width } = chart, height = Math.min(MOST_HEIGHT, chart.height + 54);
  chart.draw(c, paints, 0, height, { cursor: null, lane: null, beat: null, found: new Set() });
  const head = '<svg xmlns="http://www.w3.org/2000/svg" width="' + width + '" height="' + height + '" viewBox="0 0 ' + width + ' ' + height +
    '" font-family="system-ui, \'DejaVu Sans\', sans-serif">';
  return [head, '<title>' + escaped(title) + '</title>', '<defs>', ...definitions, '</defs>', c.text, '</svg>', ''].join('\n');
}

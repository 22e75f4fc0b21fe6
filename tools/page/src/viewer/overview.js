// The overview: all that is shown, from left to right, in 20 dots of height. It draws itself when the view is placed
// or scrolled.

const OVERVIEW_HEIGHT = 20;
let picture = null;                                            // all but the window that is in sight

function inkOf(canvas, scale) {
  const ink = canvas.getContext('2d');
  ink.setTransform(scale, 0, 0, scale, 0, 0);
  return ink;
}

const colour = name => getComputedStyle(document.body).getPropertyValue('--' + name);

function drawOverview() {
  const canvas = $('overview'), scale = window.devicePixelRatio || 1, width = canvas.clientWidth,
    { shown, tops, total } = layout;
  picture = element('canvas');
  for (const each of [picture, canvas]) {
    each.width = Math.max(1, width * scale);
    each.height = OVERVIEW_HEIGHT * scale;
  }
  const ink = inkOf(picture, scale), perDot = width / total;
  const ticks = (name, y, height, wide, passes) => {
    ink.fillStyle = colour(name);
    for (let i = 0; i < shown.length; i++) if (passes(shown[i])) ink.fillRect(tops[i] * perDot, y, wide, height);
  };
  ticks('life', 0, shown.length > 200 * width ? 5 : OVERVIEW_HEIGHT, 1, row => rows.kind[row] === SECTION);
  ticks('warn', 12, 4, 1.5, row => rows.trouble[row] === AMBER);
  ticks('bad', 8, 12, 1.5, row => rows.trouble[row] === RED);
  if (view.hits) ticks('hold', 0, 7, 1.5, row => view.hits[row]);
  drawWindow();
}

function drawWindow() {
  if (!picture) return;
  const canvas = $('overview'), ink = inkOf(canvas, 1), perDot = canvas.clientWidth / Math.max(1, layout.total);
  ink.clearRect(0, 0, canvas.width, canvas.height);
  ink.drawImage(picture, 0, 0);
  const x = view.scrolled() * perDot, width = Math.max(3, $('view').clientHeight * perDot),
    scaled = inkOf(canvas, canvas.width / canvas.clientWidth || 1);
  scaled.fillStyle = colour('hold');
  scaled.globalAlpha = .18;
  scaled.fillRect(x, 0, width, OVERVIEW_HEIGHT);
  scaled.globalAlpha = 1;
  scaled.fillRect(x, OVERVIEW_HEIGHT - 2, width, 2);
}

whenPlaced.push(drawOverview);
whenSeen.push(drawWindow);

function listenToOverview() {
  const go = event => {
    view.scrollTo(event.offsetX / $('overview').clientWidth * layout.total - $('view').clientHeight / 2);
  };
  $('overview').addEventListener('pointerdown',
    event => { $('overview').setPointerCapture(event.pointerId); go(event); });
  $('overview').addEventListener('pointermove', event => { if (event.buttons) go(event); });
}

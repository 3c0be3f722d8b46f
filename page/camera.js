// Pan and zoom: the drawing is seen through a camera that is moved by drag, wheel, pinch, buttons and keys.

const camera = { x: 0, y: 0, scale: 1, fitted: true };

function placeCamera() {
  const t = `translate(${camera.x.toFixed(2)} ${camera.y.toFixed(2)}) scale(${camera.scale.toFixed(4)})`;
  stage.camera.setAttribute('transform', t);
}

function drawnSize() {
  return mapShown() ? map.size : stage.layout;
}

function sceneSize() {
  const box = stage.svg.getBoundingClientRect();
  return { width: box.width || 1000, height: box.height || 600 };
}

// the whole drawing in the middle of the scene
function fitCamera() {
  const scene = sceneSize(), size = drawnSize();
  if (!size) return;
  camera.scale = Math.min(scene.width / size.width, scene.height / size.height, 1.8);
  camera.x = (scene.width - size.width * camera.scale) / 2;
  camera.y = Math.max(0, (scene.height - size.height * camera.scale) / 2);
  camera.fitted = true;
  placeCamera();
}

function zoomCamera(factor, x, y) {
  const scene = sceneSize();
  const cx = x === undefined ? scene.width / 2 : x, cy = y === undefined ? scene.height / 2 : y;
  const scale = Math.min(6, Math.max(0.05, camera.scale * factor));
  camera.x = cx - (cx - camera.x) * scale / camera.scale;
  camera.y = cy - (cy - camera.y) * scale / camera.scale;
  camera.scale = scale;
  camera.fitted = false;
  placeCamera();
}

// brings a point of the drawing into the middle, at a size at which its letters can be read
function lookAt(x, y, scale) {
  const scene = sceneSize();
  camera.scale = scale;
  camera.x = scene.width / 2 - x * scale;
  camera.y = scene.height / 2 - y * scale;
  camera.fitted = false;
  placeCamera();
}

function moveCamera(dx, dy) {
  camera.x += dx;
  camera.y += dy;
  camera.fitted = false;
  placeCamera();
}

function setUpCamera() {
  const svg = stage.svg;
  const held = new Map(); // pointers that are down
  svg.addEventListener('wheel', (event) => {
    event.preventDefault();
    const box = svg.getBoundingClientRect();
    zoomCamera(Math.exp(-event.deltaY * (event.deltaMode ? 0.05 : 0.0015)), event.clientX - box.left,
      event.clientY - box.top);
  }, { passive: false });
  svg.addEventListener('pointerdown', (event) => {
    held.set(event.pointerId, { x: event.clientX, y: event.clientY });
    svg.dragged = false;
  });
  svg.addEventListener('pointermove', (event) => {
    const last = held.get(event.pointerId);
    if (!last) return;
    const dx = event.clientX - last.x, dy = event.clientY - last.y;
    if (!svg.dragged && Math.abs(dx) + Math.abs(dy) < 4) return;
    if (!svg.dragged) { svg.dragged = true; svg.setPointerCapture(event.pointerId); }
    if (held.size === 2) {
      const other = [...held].find(([id]) => id !== event.pointerId)[1];
      const was = Math.hypot(last.x - other.x, last.y - other.y), is = Math.hypot(event.clientX - other.x,
        event.clientY - other.y);
      const box = svg.getBoundingClientRect();
      zoomCamera(is / Math.max(1, was), (event.clientX + other.x) / 2 - box.left,
        (event.clientY + other.y) / 2 - box.top);
    } else {
      moveCamera(dx, dy);
    }
    held.set(event.pointerId, { x: event.clientX, y: event.clientY });
  });
  const release = (event) => held.delete(event.pointerId);
  for (const it of ['pointerup', 'pointercancel', 'pointerleave']) svg.addEventListener(it, release);
  new ResizeObserver(() => { if (camera.fitted) fitCamera(); }).observe(svg);
}

// Two fingers that go twice as far apart.
const picture = document.querySelector("#sheets svg.rows");
const touch = (kind, pointerId, clientX) =>
  picture.dispatchEvent(new PointerEvent(kind, { pointerId, clientX, clientY: 300, bubbles: true }));
touch("pointerdown", 1, 400);
touch("pointerdown", 2, 600);
touch("pointermove", 2, 800);
touch("pointerup", 1, 400);
touch("pointerup", 2, 800);

// Zooms in and out and moves, a step in each frame, and gives the times of the frames and what each drawing took.
const finish = arguments[0], frames = [], draws = [], { state, move, zoom, drawAll } = schedule;
const next = (now) => {
  const count = frames.push(now), span = state.to - state.from;
  if (count > 120 || now - frames[0] > 10000) {
    finish({ frames, draws });
    return;
  }
  if (count % 60 < 25) zoom(0.9);
  else if (count % 60 < 50) zoom(1 / 0.9);
  else move(state.from + span / 50, span);
  const begin = performance.now();
  drawAll();
  draws.push(performance.now() - begin);
  requestAnimationFrame(next);
};
move(0, state.ticks);
requestAnimationFrame(next);

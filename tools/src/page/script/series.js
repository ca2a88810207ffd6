// The words and blocks that change: a row for each below the tasks.

// A level with a mark at each change, and its new value where there is room before the next one.
function drawSeries(context) {
  shownSeries.forEach((series, index) => {
    const y = rowsEnd + SERIES_HEIGHT * (index + 0.5) + 2;
    line(context, "#999", 0.8, LEFT, y, Math.min(LEFT + view.width, tickToX(run.ticks)), y);
    const ticks = series.ticks;
    let drawnAt = -Infinity;
    for (let change = countBelow(ticks, Math.floor(view.from)); change < ticks.length; change++) {
      const tick = ticks[change], x = tickToX(tick + 0.5);
      if (x > LEFT + view.width) break;
      // Many changes in a pixel are one mark.
      if (x - drawnAt < 1) continue;
      drawnAt = x;
      changeSign(context, x, y, view.zoom >= SIGN_ZOOM ? 4 : 2.5);
      const next = change + 1 < ticks.length ? tickToX(ticks[change + 1] + 0.5) - 6 : Infinity;
      drawChangedValue(context, series, tick, x + 6, y, Math.min(next, LEFT + view.width - 2) - x - 6);
    }
  });
}

function drawChangedValue(context, series, tick, x, y, room) {
  // Most values of a zoomed-out chart have no room; those need no text at all.
  if (room < 8) return;
  const text = valueTexts(series, tick).find((text) => context.measureText(text).width <= room);
  if (!text) return;
  context.fillStyle = "#fff";
  context.fillRect(x - 1, y - 6, context.measureText(text).width + 2, 12);
  context.fillStyle = "#000";
  context.fillText(text, x, y + 4);
}

// The new value in full, and in short.
function valueTexts(series, tick) {
  const short = valueText(series, tick + 1);
  if (!series.isBlock) return [short];
  const offsets = Array.from({ length: BLOCK_VALUES }, (_, offset) => offset);
  const changed = offsets.filter((offset) => numberAt(series, offset, tick) !== numberAt(series, offset, tick + 1));
  const values = changed.map((offset) => `, at ${offset}: ${numberAt(series, offset, tick + 1)}`);
  return [short + values.join(""), short, String(valueBefore(series.place, tick + 1))];
}

function numberAt(series, offset, tick) { return valueBefore(series.place + 1 + offset, tick); }

function valueText(series, tick) {
  const number = valueBefore(series.place, tick);
  return series.isBlock ? `version ${number}` : String(number);
}

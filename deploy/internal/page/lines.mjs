// Differences between texts, line by line.

// The most steps that a comparison takes; texts that differ more are shown as replaced.
const MOST_STEPS = 5e7;
const MOST_CHANGES = 2000;

/** Splits a text into lines, without their ends. */
export const linesOf = (text) => (text === "" ? [] : text.replace(/\r\n?/g, "\n").replace(/\n$/, "").split("\n"));

/**
 * Returns the lines of two texts in order, as {sign, old, now, text}: "-" only in the first, "+" only in the second, " " in both.
 * `old` and `now` are numbers of lines.
 */
export const compareLines = (before, after) => {
  const a = linesOf(before), b = linesOf(after);
  let start = 0, cut = 0;
  while (start < a.length && start < b.length && a[start] === b[start]) start++;
  while (cut < a.length - start && cut < b.length - start && a[a.length - 1 - cut] === b[b.length - 1 - cut]) cut++;
  const changes = shortest(a.slice(start, a.length - cut), b.slice(start, b.length - cut));
  const signs = " ".repeat(start) + changes + " ".repeat(cut);
  let old = 0, now = 0;
  return Array.from(signs, (sign) => ({
    sign,
    text: sign === "-" ? a[old] : b[now],
    old: sign === "+" ? 0 : ++old,
    now: sign === "-" ? 0 : ++now,
  }));
};

// Returns a shortest list of signs that leads from some lines to others (Myers, "An O(ND) difference algorithm and its variations").
const shortest = (a, b) => {
  const known = new Map();
  const numbered = (lines) => Int32Array.from(lines, (line) => known.get(line) ?? known.set(line, known.size).size - 1);
  const x = numbered(a), y = numbered(b);
  const rounds = [];
  let reach = new Int32Array(3), steps = 0;
  for (let d = 0; d <= MOST_CHANGES && steps < MOST_STEPS; d++) {
    const next = new Int32Array(2 * d + 3); // by the diagonal, from -d-1 to d+1
    for (let k = -d; k <= d; k += 2) {
      let i = d === 0 ? 0 : furthest(reach, d - 1, k);
      const from = i;
      while (i < x.length && i - k < y.length && x[i] === y[i - k]) i++;
      steps += i - from + 1;
      next[k + d + 1] = i;
      if (i >= x.length && i - k >= y.length) return signsOf(rounds, x.length, y.length, d);
    }
    rounds.push(next);
    reach = next;
  }
  return "-".repeat(x.length) + "+".repeat(y.length);
};

// Returns how far a diagonal is reached by one more change: a line less, or a line more.
const furthest = (reach, d, k) => (isDown(reach, d, k) ? reach[k + 1 + d + 1] : reach[k - 1 + d + 1] + 1);

const isDown = (reach, d, k) => k === -d - 1 || (k !== d + 1 && reach[k - 1 + d + 1] < reach[k + 1 + d + 1]);

// Goes back from the ends of both texts to their begins.
const signsOf = (rounds, i, j, d) => {
  const back = [];
  for (; d > 0; d--) {
    const reach = rounds[d - 1], k = i - j, down = isDown(reach, d - 1, k);
    const from = down ? reach[k + 1 + d] : reach[k - 1 + d], to = down ? from : from + 1;
    back.push(" ".repeat(i - to), down ? "+" : "-");
    i = from;
    j = from - (down ? k + 1 : k - 1);
  }
  return " ".repeat(i) + back.reverse().join("");
};

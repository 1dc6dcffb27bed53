// Unsaved texts, which outlive a closed tab.

/** Returns the name of the draft of a bundle, or of an item in it. */
export const nameOf = (...parts) => JSON.stringify(["resb", ...parts]);

/** Returns the draft that is stored under a name, or null. */
export const stored = (name) => {
  try {
    return JSON.parse(localStorage.getItem(name));
  } catch {
    return null; // the browser stores nothing
  }
};

/** Stores a draft, or removes it if it is null. Returns false if the browser doesn't store it. */
export const keep = (name, draft) => {
  try {
    localStorage.removeItem(name);
    if (draft !== null) localStorage.setItem(name, JSON.stringify(draft));
    return true;
  } catch {
    return draft === null;
  }
};

// Light and dark: as the system says, until one is chosen here. The choice is kept by the browser.

const KEY = "groupdesign.theme";
const system = matchMedia("(prefers-color-scheme: dark)");

/** The theme that was chosen, or what the system says. */
function wanted() {
  return kept() ?? (system.matches ? "dark" : "light");
}

/** @returns {string | null} */
function kept() {
  try {
    const value = localStorage.getItem(KEY);
    return value === "dark" || value === "light" ? value : null;
  } catch {
    // A browser may have closed its storage.
    return null;
  }
}

/** Shows the theme before anything is drawn. */
export function startTheme() {
  document.documentElement.dataset.theme = wanted();
}

/**
 * Puts `setTheme` on `ed`.
 * @param {Ed} ed
 */
export function makeTheme(ed) {
  startTheme();
  ed.setTheme = (theme) => {
    try {
      localStorage.setItem(KEY, theme);
    } catch {
      // It is light or dark for this visit alone.
    }
    show(ed, theme);
  };
  system.addEventListener("change", () => {
    if (!kept()) show(ed, wanted());
  });
}

/**
 * @param {Ed} ed
 * @param {string} theme
 */
function show(ed, theme) {
  document.documentElement.dataset.theme = theme;
  ed.scene.theme();
  ed.overlay.theme();
  ed.roster.update();
  ed.history.draw();
  ed.touch("scene");
  ed.touch("overlay");
  ed.rested();
}

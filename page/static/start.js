// Sees to it that the page comes whole. A file that didn't come, as from a very busy machine, leaves a page on which nothing
// works: that is said, and the page is loaded again. This runs before all else, so it is no module.
{
  const KEY = "groupdesign.loads";
  const MOST = 5;
  /** In milliseconds, and twice as long each time. */
  const FIRST_WAIT = 1000;
  let isLost = false;

  /** How often this page was loaded again in a row; where the browser keeps nothing, too often. */
  const loads = () => {
    try {
      return Number(sessionStorage.getItem(KEY));
    } catch {
      return MOST;
    }
  };

  /** @param {string} text */
  const say = (text) => {
    const words = document.getElementById("loading");
    if (!words) return;
    words.textContent = text;
    words.dataset.lost = "1";
  };

  const loadAgain = () => {
    if (isLost) return;
    isLost = true;
    const count = loads();
    if (count < MOST) {
      sessionStorage.setItem(KEY, String(count + 1));
      setTimeout(() => location.reload(), FIRST_WAIT * 2 ** count);
    }
    const words = count < MOST ? "It is loaded again …" : "Load it again, by your browser’s button or F5.";
    const tell = () => say(`A part of the page didn’t come. ${words}`);
    if (document.readyState === "loading") addEventListener("DOMContentLoaded", tell);
    else tell();
  };

  addEventListener("error", ({ target }) => {
    if (target instanceof HTMLScriptElement || target instanceof HTMLLinkElement) loadAgain();
  }, true);
  addEventListener("load", () => {
    if (!isLost && loads()) sessionStorage.removeItem(KEY);
  });
}

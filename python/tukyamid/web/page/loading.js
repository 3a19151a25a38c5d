// Says if a part of the page doesn't come, and offers to load it again. It is no module, and is loaded before them: if
// one of them is missing, none of them runs.

(() => {
  const LATE = 10000;
  const box = () => document.getElementById("loading");

  function say(text) {
    if (!box()) return;
    document.getElementById("loading-said").textContent = `${text} `;
    box().classList.add("said");
  }

  /** Says it, also if the rest of the page begins. */
  function fail(text) {
    if (!box() && document.readyState === "loading") {
      document.addEventListener("readystatechange", () => fail(text), { once: true });
      return;
    }
    if (!box()) return;
    box().dataset.failed = "yes";
    box().hidden = false;
    say(text);
  }

  window.addEventListener("error", (event) => {
    if (event.target instanceof HTMLScriptElement || event.target instanceof HTMLLinkElement) {
      fail(document.documentElement.dataset.public === "yes" ? "A part of this page couldn’t be loaded."
        : "A part of this page couldn’t be loaded. If the command tukyamid web has ended, start it again.");
    } else if (box() && !box().hidden && !box().dataset.failed) {
      fail("This page couldn’t begin.");
    }
  }, true);
  document.addEventListener("click", (event) => {
    if (event.target.id !== "load-again") return;
    event.preventDefault();  // The link alone would lose the question, which the address has behind #.
    location.reload();
  });
  setTimeout(() => { if (!box()?.hidden && !box()?.dataset.failed) say("Parts of this page are late."); }, LATE);
})();

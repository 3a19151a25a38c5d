// Has the browser say in words that the command has ended if the page is loaded again then.

/** Once for each address. Where the browser has no such workers, its own words remain. */
export function prepareReload() {
  if (!document.querySelector("meta[name=seal]")?.content) return;  // It is no command's of this user.
  // The one address that a script may be loaded from by its name: nothing that others wrote can become one.
  const policy = window.trustedTypes?.createPolicy("reload", { createScriptURL: () => "reload_worker.js" });
  navigator.serviceWorker?.register(policy?.createScriptURL("") ?? "reload_worker.js").catch(() => {});
}

// Runs beside the page. If the page is loaded again after its command has ended, this says so in words.

const WORDS = `<!doctype html>
<html lang="en">
<meta charset="utf-8">
<meta name="viewport" content="width=device-width">
<title>Tukyamid: the command has ended</title>
<style>
:root { color-scheme: light dark }
body { margin: 3rem auto; max-width: 40rem; padding: 0 1.2rem; font: 1.05rem/1.5 system-ui, sans-serif }
</style>
<main>
<h1>The command has ended</h1>
<p>This page was served by the command <code>tukyamid web</code>, which doesn’t run any more.</p>
<p>Start it again: it opens the page at a new address. Your question is the part of the old address from
<code>#</code> on. Put behind the new address, it is asked again.</p>
</main>
</html>
`;

const ended = () => new Response(WORDS, { status: 503, headers: {
  "Content-Type": "text/html; charset=utf-8",
  "Content-Security-Policy": "default-src 'none'; style-src 'unsafe-inline'" } });

self.addEventListener("install", () => self.skipWaiting());
self.addEventListener("activate", (event) => event.waitUntil(self.clients.claim()));
self.addEventListener("fetch", (event) => {
  const { method, mode, destination, url } = event.request;
  if (method !== "GET" || mode !== "navigate" || destination !== "document") return;
  // Asked for by the address alone: of a page of another origin that led here, the server would learn its origin, but
  // not that the user went there, and would refuse.
  event.respondWith(fetch(url, { cache: "no-store", redirect: "manual" }).catch(ended));
});

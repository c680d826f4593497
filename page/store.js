// What the page keeps. Requests that wait for their answer and forms lie in IndexedDB, written through to the disk,
// so that a killed browser finds them again. Groups, numbers of drafts and marks lie in localStorage.
export function openStore(name) {
  return new Promise((done, failed) => {
    const asked = indexedDB.open(name, 1);
    asked.onupgradeneeded = () => asked.result.createObjectStore("kept");
    asked.onerror = () => failed(asked.error);
    asked.onsuccess = () => done(storeOver(asked.result));
  });
}

function storeOver(db) {
  const run = (mode, job) => new Promise((done, failed) => {
    const work = db.transaction("kept", mode, { durability: "strict" });
    const asked = job(work.objectStore("kept"));
    work.oncomplete = () => done(asked.result);
    work.onerror = work.onabort = () => failed(work.error);
  });
  return {
    get: (key) => run("readonly", (kept) => kept.get(key)).then((value) => value ?? null),
    set: (key, value) => run("readwrite", (kept) => kept.put(value, key)),
    remove: (key) => run("readwrite", (kept) => kept.delete(key)),
  };
}

/** A value of localStorage, as JSON; `otherwise` where there is none, or none that reads. */
export function kept(key, otherwise) {
  try { return JSON.parse(localStorage.getItem(key)) ?? otherwise; } catch { return otherwise; }
}
export function keep(key, value) {
  try {
    if (value === null) localStorage.removeItem(key); else localStorage.setItem(key, JSON.stringify(value));
  } catch { /* a full or barred store: the form is then not kept over a reload */ }
}

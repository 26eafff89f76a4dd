// Has the page speak the crew's language, before anything else of it says something.

const SAID_BY = ["title", "placeholder", "aria-label"];  // what is said by attributes

document.documentElement.lang = speak(navigator.languages);
translatePage();

/** Puts the page's own texts into the crew's language. */
function translatePage() {
  const walk = document.createTreeWalker(document, NodeFilter.SHOW_TEXT);
  while (walk.nextNode()) {
    const { currentNode: text } = walk;
    if (!text.parentNode.matches("script, style")) text.data = phraseOfSource(text.data);
  }
  for (const name of SAID_BY) {
    for (const it of document.querySelectorAll(`[${name}]`)) {
      it.setAttribute(name, phraseOfSource(it.getAttribute(name)));
    }
  }
}

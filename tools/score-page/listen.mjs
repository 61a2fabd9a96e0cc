// What the page does when the pointer, the keys, the buttons, the window and the printer say something.

export const part = name => document.getElementById(name);

/** Has the page told of all that its elements and its window say. */
export function listen(page) {
  const {scroller} = page, place = event => {
    const box = scroller.getBoundingClientRect();
    return [event.clientX - box.left, event.clientY - box.top];
  };
  scroller.addEventListener('scroll', () => page.scrolled());
  scroller.addEventListener('pointermove', event => {
    if (page.score) page.point(page.at(...place(event)));
  });
  scroller.addEventListener('pointerleave', () => {
    if (page.score) page.point(null);
  });
  scroller.addEventListener('click', event => {
    if (!page.score) return;
    const target = page.at(...place(event));
    if (target?.row.kind === 'fold') page.toggle(target.row);
    page.choose(target);
  });
  scroller.addEventListener('wheel', event => {
    if (!event.ctrlKey || !page.score) return;
    event.preventDefault();
    page.zoom_to(page.view.zoom * Math.exp(-event.deltaY / 300), place(event)[0]);
  }, {passive: false});
  listen_around(page);
}

// The keys, the search, the files, the buttons, and the window.
function listen_around(page) {
  document.addEventListener('keydown', event => page.key(event));
  part('search').addEventListener('input', event => page.search(event.target.value.trim()));
  part('files').addEventListener('change', async event => {
    await page.open([...event.target.files]);
    // The same file may be opened again once it was changed.
    part('files').value = '';
  });
  part('in').addEventListener('click', () => page.zoom_by(1.5));
  part('out').addEventListener('click', () => page.zoom_by(1 / 1.5));
  part('all').addEventListener('click', () => page.fit());
  addEventListener('resize', () => {
    if (page.score && !page.view.printing) {
      page.measure();
      page.zoom_to(page.view.zoom);
    }
  });
  addEventListener('beforeprint', () => page.print(true));
  addEventListener('afterprint', () => page.print(false));
  page.dark.addEventListener('change', () => {
    page.legend();
    page.redraw();
  });
}

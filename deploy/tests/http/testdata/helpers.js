// What scripts of testdata/browser use. Requests of the page wait whose method and address have the part `hold`, until `letGo` is called.
{
	const ask = fetch;
	const text = document.getElementById('text');
	let held = [];
	window.hold = '';
	window.fetch = async (address, given) => {
		if (window.hold && (given.method + ' ' + address).includes(window.hold)) await new Promise(wake => held.push(wake));
		return ask(address, given);
	};
	window.letGo = () => { window.hold = ''; held.forEach(wake => wake()); held = []; };
	window.waiting = () => String(held.length);
	window.type = (typed) => { if (!text.readOnly) { text.value = typed; text.dispatchEvent(new Event('input')); } };
	window.open_ = (locale) => { document.getElementById('locale').value = locale; document.getElementById('who').requestSubmit(); };
	window.drop = (name, content) => {
		const given = new DataTransfer();
		given.items.add(new File([content], name));
		text.dispatchEvent(new DragEvent('drop', { dataTransfer: given, bubbles: true, cancelable: true }));
	};
	window.directed = (part) => {
		const cells = [...document.querySelectorAll('#both td div, #both textarea')];
		const cell = cells.find(c => (c.value ?? c.textContent).includes(part));
		return getComputedStyle(cell).direction + cell.lang;
	};
	window.marked = () => {
		const { value, selectionStart: from, selectionEnd: to } = text;
		return JSON.stringify([value.slice(0, from), value.slice(from, to)]);
	};
	window.cellsOf = (row) => {
		const [path, source] = [...row.cells].map(c => c.textContent);
		return [path, source, row.querySelector('textarea')?.value ?? null, row.querySelector('span:last-child').textContent];
	};
	window.choose = (rows) => {
		document.getElementById('filter').value = rows;
		document.getElementById('filter').dispatchEvent(new Event('change'));
	};
	// what can be used and is less than 24 px wide or high, or ends beyond the page's column
	window.small = () => {
		const end = document.querySelector('main').getBoundingClientRect().right;
		const usable = [...document.querySelectorAll('a:not(.skip), button, label.button, input, textarea, select, summary')].filter(e => e.checkVisibility());
		const isBad = ({ width, height, right }) => width < 23.9 || height < 23.9 || right > end + 0.5;
		return usable.filter(e => isBad(e.getBoundingClientRect())).map(e => `${e.id || e.textContent} ${e.offsetWidth} ${e.offsetHeight}`).join();
	};
	// the contrast of a placeholder and the page (WCAG 2.2)
	window.contrast = () => {
		const light = (color) => color.match(/\d+/g).map(x => x / 255).map(x => (x <= 0.04045 ? x / 12.92 : ((x + 0.055) / 1.055) ** 2.4))
			.slice(0, 3).reduce((sum, x, i) => sum + x * [0.2126, 0.7152, 0.0722][i], 0.05);
		const placeholder = light(getComputedStyle(document.getElementById('app'), '::placeholder').color);
		return placeholder / light(getComputedStyle(document.getElementById('ask')).backgroundColor);
	};
	window.show = (view, form) => { location.hash = view; document.getElementById(form)?.requestSubmit(); };
}
''

// Rules of WCAG 2.2 for what is shown now. Each function returns what breaks a rule, as a text.
{
	const shown = () => [...document.querySelectorAll('body *')].filter(e => e.checkVisibility() && e.getClientRects().length > 0 && !e.closest('.skip, option, [disabled]'));
	const named = (e) => `${e.id || e.localName} ${(e.textContent || e.value || e.placeholder || '').trim().slice(0, 20)}`;
	const parse = (color) => { const [r, g, b, a = 1] = color.match(/[\d.]+/g).map(Number); return [[r, g, b], a]; };
	const over = (color, below) => { const [parts, a] = parse(color); return parts.map((part, i) => part * a + below[i] * (1 - a)); };
	const canvas = () => {
		const e = document.body.appendChild(document.createElement('i'));
		e.style.backgroundColor = 'Canvas';
		const [color] = parse(getComputedStyle(e).backgroundColor);
		e.remove();
		return color;
	};
	const ground = (e, below) => (e === null ? below : over(getComputedStyle(e).backgroundColor, ground(e.parentElement, below)));
	const light = (color) => color.map(c => (c / 255 <= 0.04045 ? c / 255 / 12.92 : ((c / 255 + 0.055) / 1.055) ** 2.4))
		.reduce((sum, c, i) => sum + c * [0.2126, 0.7152, 0.0722][i], 0);
	const ratio = (a, b) => (Math.max(light(a), light(b)) + 0.05) / (Math.min(light(a), light(b)) + 0.05);
	const weak = (e, color, least, below) => {
		const on = ground(e, below), is = ratio(over(color, on), on);
		return is < least ? [`${named(e)}: ${is.toFixed(2)}`] : [];
	};
	// texts have a contrast of 4.5, frames of fields one of 3
	window.contrasts = () => {
		const below = canvas();
		return shown().flatMap(e => {
			const style = getComputedStyle(e), isField = /^(input|select|textarea)$/.test(e.localName);
			const hasText = isField || [...e.childNodes].some(n => n.nodeType === 3 && n.data.trim() !== '');
			const frame = parseFloat(style.borderTopWidth) > 0 && isField ? weak(e.parentElement, style.borderTopColor, 3, below) : [];
			return [...(hasText ? weak(e, style.color, 4.5, below) : []), ...frame];
		}).join('; ');
	};
	// nothing is wider than the window, and cells below one another name their columns
	window.narrow = () => {
		const wide = document.documentElement.scrollWidth > innerWidth ? shown().filter(e => e.getBoundingClientRect().right > innerWidth) : [];
		const cells = [...document.querySelectorAll('tbody th, tbody td')].filter(e => e.checkVisibility());
		const bare = cells.filter(e => !/\w/.test(getComputedStyle(e, '::before').content.replace('none', '')));
		return [...wide, ...bare, ...cells.filter(e => !/cell|rowheader/.test(e.role))].map(named).join('; ');
	};
}
''

// Measures how the page looks and sounds: contrasts, names, what Tab reaches, what overflows. Run in the page by test_looks.py.
(() => {
    const shown = (element) => {
        const box = element.getBoundingClientRect(), style = getComputedStyle(element);
        return box.width > 0 && box.height > 0 && style.visibility === "visible" && !element.closest("[hidden]");
    };
    const colour = (text) => {
        const canvas = new OffscreenCanvas(1, 1).getContext("2d", { willReadFrequently: true });
        canvas.fillStyle = text;
        canvas.fillRect(0, 0, 1, 1);
        return [...canvas.getImageData(0, 0, 1, 1).data];
    };
    const kept = new Map();
    const rgba = (text) => {
        if (!kept.has(text)) kept.set(text, colour(text));
        return kept.get(text);
    };
    /** Relative luminance and contrast (WCAG 2.2). */
    const luminance = ([r, g, b]) => {
        const [x, y, z] = [r, g, b].map((part) => (part / 255 <= 0.04045 ? part / 255 / 12.92 : ((part / 255 + 0.055) / 1.055) ** 2.4));
        return 0.2126 * x + 0.7152 * y + 0.0722 * z;
    };
    const contrast = (one, other) => {
        const [high, low] = [luminance(one), luminance(other)].sort((a, b) => b - a);
        return (high + 0.05) / (low + 0.05);
    };
    const behind = (element) => {
        for (let at = element; at; at = at.parentElement) {
            const found = rgba(getComputedStyle(at).backgroundColor);
            if (found[3] === 255) return found;
        }
        return rgba(getComputedStyle(document.documentElement).colorScheme.includes("dark") ? "black" : "white");
    };
    const named = (element) => `${element.tagName.toLowerCase()}${element.id ? `#${element.id}` : ""}${element.className && typeof element.className === "string" ? `.${element.className.trim().replace(/ +/g, ".")}` : ""}`;
    return {
        /** Texts whose contrast is under 4.5, and borders of fields and buttons under 3. */
        faint() {
            const low = [];
            const walker = document.createTreeWalker(document.body, NodeFilter.SHOW_TEXT);
            for (let node = walker.nextNode(); node; node = walker.nextNode()) {
                const element = node.parentElement;
                if (!node.data.trim() || !shown(element) || ["SCRIPT", "STYLE", "OPTION"].includes(element.tagName)) continue;
                const ratio = contrast(rgba(getComputedStyle(element).color), behind(element));
                if (ratio < 4.5) low.push(`${named(element)} ${JSON.stringify(node.data.trim().slice(0, 20))} ${ratio.toFixed(2)}`);
            }
            for (const element of document.querySelectorAll("main input, main select, main textarea, .bar button:not(:disabled), #screen, #tester")) {
                if (!shown(element)) continue;
                const style = getComputedStyle(element), ratio = contrast(rgba(style.borderTopColor), behind(element.parentElement));
                if (style.borderTopWidth !== "0px" && ratio < 3 && !element.closest(".script")) low.push(`${named(element)} border ${ratio.toFixed(2)}`);
            }
            return [...new Set(low)];
        },
        /** What Tab reaches, in order, as the document has it. */
        stops: () => [...document.querySelectorAll("button, select, input, textarea, [tabindex]")]
            .filter((element) => shown(element) && element.tabIndex >= 0 && !element.disabled).map(named),
        /** The button of a row that Tab reaches. */
        first: (row) => [...document.querySelectorAll(`${row} button`)].find((button) => button.tabIndex === 0),
        focused: () => {
            const element = document.activeElement, style = getComputedStyle(element);
            return [named(element), style.outlineStyle !== "none" && parseFloat(style.outlineWidth) >= 2];
        },
        /** Whether the page is wider than the window, and what sticks out. */
        wide: () => document.documentElement.scrollWidth > innerWidth
            ? [...document.querySelectorAll("body *")].filter((element) => shown(element) && element.getBoundingClientRect().right > innerWidth + 1).map(named).slice(0, 5) : [],
        /** Texts of buttons that don't fit. */
        cut: () => [...document.querySelectorAll("button, h1, h2, .tag, label, .card p")].filter((element) => shown(element) && !element.closest("#keyboard, .palette, .bits-head")
            && (element.scrollWidth > element.clientWidth + 1 && getComputedStyle(element).display !== "inline")).map(named),
        /** Choices whose chosen text does not fit. */
        narrow: () => [...document.querySelectorAll("select")].filter((element) => {
            if (!shown(element)) return false;
            const style = getComputedStyle(element), pen = new OffscreenCanvas(1, 1).getContext("2d"), arrow = 18;
            pen.font = `${style.fontSize} ${style.fontFamily}`;
            return pen.measureText(element.selectedOptions[0]?.textContent ?? "").width > element.clientWidth - parseFloat(style.paddingLeft) - parseFloat(style.paddingRight) - arrow;
        }).map(named),
        /** Legends of keys of which a word of up to 8 letters is broken, or that don't fit their key. */
        broken: () => [...document.querySelectorAll("#keyboard button")].filter((element) => {
            if (!shown(element) || !element.firstChild) return false;
            const range = document.createRange(), text = element.firstChild.data;
            const broken = [...text.matchAll(/(?<!\S)\S{1,8}(?!\S)/g)].some((word) => {
                range.setStart(element.firstChild, word.index);
                range.setEnd(element.firstChild, word.index + word[0].length);
                return range.getClientRects().length > 1;
            });
            return broken || element.scrollHeight > element.clientHeight + 1;
        }).map((element) => element.textContent),
        small: () => [...document.querySelectorAll("main button, header button, main select")].filter((element) => shown(element) && Math.min(element.getBoundingClientRect().width, element.getBoundingClientRect().height) < 20).map(named),
    };
})()

// A keyboard on USB, played by the page's own core: what Chromium and Linux make of the calls of WebHID. A stall is an error
// without a reason, a transfer that is NAKed waits, and a report that is read has its ID in front.
(() => {
    const listeners = { connect: [], disconnect: [] };
    let granted = [], offered = null;
    const refuse = () => {
        throw new DOMException("Failed to write the feature report.", "NotAllowedError");
    };
    class Played extends EventTarget {
        opened = false;
        productName = "Played keyboard";
        vendorId = 0x1209;
        productId = 1;
        collections = [{ usagePage: 1, usage: 6, featureReports: [] }, { usagePage: 0xff00, usage: 1, featureReports: [{ reportId: 3 }] }];
        sent = [];
        shut = false; // whether the system refuses to open it
        cutAt = -1; // the command in which it goes away, torn by the mask
        mask = null; // tears every flash operation: the flash fails
        async open() {
            if (this.shut) throw new DOMException("Failed to open the device.", "NotAllowedError");
            this.device ??= new page.Device(2);
            this.opened = true;
        }
        async close() {
            this.opened = false;
        }
        work() {
            return this.mask ? this.device.workTorn(this.mask) : this.device.work();
        }
        async sendFeatureReport(id, data) {
            await null;
            if (!this.opened) refuse();
            this.sent.push([...data]);
            this.device.setup([0x21, 9, id, 3, 0, 0, data.length + 1, 0]);
            if (this.device.out([id, ...data]).kind !== "ack") refuse();
            const commands = this.sent.filter(([operation]) => operation > 0).length;
            if (data[0] > 0 && commands === this.cutAt) {
                this.device.workTorn(Uint8Array.of(0x55));
                this.device.cut();
                played.unplug(this);
                refuse();
            }
            while (this.work() === "working");
            if (this.device.in().kind !== "data") refuse();
        }
        async receiveFeatureReport(id) {
            await null;
            if (!this.opened) refuse();
            this.device.setup([0xa1, 1, id, 3, 0, 0, 6, 0]);
            const { bytes } = this.device.in();
            this.device.out([]);
            return new DataView(bytes.buffer);
        }
    }
    const played = {
        Played,
        device: null,
        asked: null,
        offer: (device) => (offered = played.device = device),
        grant: (device) => (granted = [device]),
        unplug(device) {
            device.opened = false;
            for (const listener of listeners.disconnect) listener({ device });
        },
        /** Plugs a keyboard in again: a browser gives another object for it. */
        plug({ device, sent, productName }) {
            played.device = Object.assign(new Played(), { device, sent, productName });
            for (const listener of listeners.connect) listener({ device: played.device });
        },
    };
    globalThis.played = played;
    Object.defineProperty(navigator, "hid", {
        value: {
            async requestDevice({ filters }) {
                played.asked = filters;
                return offered ? [offered] : [];
            },
            async getDevices() {
                return granted;
            },
            addEventListener: (name, listener) => listeners[name].push(listener),
        },
    });
})();

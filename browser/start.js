// Starts both workers while the rest of the page is still being read. Once it is, one of them gets the program, and the
// page's own script is unpacked and started.
const heldIn = (id) => document.getElementById(id).textContent;
const workerUrl = URL.createObjectURL(new Blob([heldIn("work")], { type: "text/javascript" }));
const workers = [new Worker(workerUrl), new Worker(workerUrl)];
let opened = 0;
const started = new Promise((done) => {
    workers[1].addEventListener("message", ({ data }) => done(data.result), { once: true });
});
addEventListener("DOMContentLoaded", async () => {
    opened = performance.now();
    workers[1].postMessage({ number: 0, job: "start", packed: heldIn("packed") });
    const script = document.createElement("script");
    try {
        script.textContent = await unpacked(heldIn("page"), "text/javascript").text();
        document.body.append(script);
    } catch (fault) {
        document.getElementById("state").textContent = `This page can't start here: ${fault}`;
    }
});

"use strict";

// The protocol of language servers over two streams: requests, their replies, and notifications.

const CANCELLED = -32800;
const METHOD_NOT_FOUND = -32601;
const INTERNAL_ERROR = -32603;
const HEADER = /^Content-Length: *(\d+)$/im;

class Connection {
  /** Reads messages from a stream, and writes them to another. */
  constructor(readable, writable) {
    this.writable = writable;
    this.held = Buffer.alloc(0);
    this.number = 0;
    this.waiting = new Map();
    this.handlers = new Map();
    readable.on("data", (data) => this.take(data));
    writable.on("error", (error) => this.end(error));
  }

  /** Sets what answers a request or a notification of the server. */
  on(method, handler) {
    this.handlers.set(method, handler);
    return this;
  }

  /** Asks for something. With a token of VS Code the request is cancelled if that is. */
  request(method, params, token) {
    if (this.ended) return Promise.reject(this.ended);
    const id = (this.number += 1);
    const answered = new Promise((resolve, reject) => this.waiting.set(id, { resolve, reject }));
    this.send({ id, method, params });
    const listening = token?.onCancellationRequested?.(() => this.waiting.has(id) && this.notify("$/cancelRequest", { id }));
    return answered.finally(() => listening?.dispose());
  }

  notify(method, params) {
    if (!this.ended) this.send({ method, params });
  }

  /** Refuses all that waits, and what is asked later. */
  end(error) {
    this.ended ??= error;
    for (const { reject } of this.waiting.values()) reject(error);
    this.waiting.clear();
  }

  send(message) {
    const body = Buffer.from(JSON.stringify({ jsonrpc: "2.0", ...message }));
    this.writable.write(Buffer.concat([Buffer.from(`Content-Length: ${body.length}\r\n\r\n`), body]));
  }

  take(data) {
    this.held = Buffer.concat([this.held, data]);
    for (;;) {
      const end = this.held.indexOf("\r\n\r\n");
      if (end < 0) return;
      const header = HEADER.exec(this.held.subarray(0, end).toString("latin1"));
      const [start, length] = [end + 4, header ? Number(header[1]) : 0];
      if (this.held.length < start + length) return;
      const body = this.held.subarray(start, start + length).toString();
      this.held = this.held.subarray(start + length);
      if (header) this.receive(JSON.parse(body));
    }
  }

  receive(message) {
    if (message.method !== undefined) {
      this.answer(message);
      return;
    }
    const waiting = this.waiting.get(message.id);
    this.waiting.delete(message.id);
    if (!waiting) return;
    if (!message.error) waiting.resolve(message.result);
    else if (message.error.code === CANCELLED) waiting.resolve(null);
    else waiting.reject(Object.assign(new Error(message.error.message), { code: message.error.code }));
  }

  async answer({ id, method, params }) {
    const handler = this.handlers.get(method);
    try {
      if (!handler && id !== undefined) throw Object.assign(new Error(`there is no method ${method}`), { code: METHOD_NOT_FOUND });
      const result = await handler?.(params);
      if (id !== undefined) this.send({ id, result: result ?? null });
    } catch (error) {
      if (id !== undefined) this.send({ id, error: { code: error.code ?? INTERNAL_ERROR, message: error.message } });
    }
  }
}

module.exports = { Connection };

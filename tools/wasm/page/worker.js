
onmessage = event => {
  const {module, request} = event.data;
  try {
    postMessage({kind: 'ended', ...runOnce(module, request, it => postMessage(it))});
  } catch (error) {
    postMessage({kind: 'failed', text: String(error && error.message || error)});
  }
};

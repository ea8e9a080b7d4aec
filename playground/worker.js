// In a Worker: the module comes once, then a message for each answer that is asked for.
let program;
onmessage = ({ data }) => {
  if (data.module) {
    program = data.module;
    return;
  }
  try {
    postMessage({ answer: answerOf(program, data.words, data.texts) });
  } catch (error) {
    postMessage({ trouble: String(error) });
  }
};

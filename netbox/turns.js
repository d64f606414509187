/* A worker of nginx runs one handler at a time. One that has much to do lets the others in between. */

/** @returns {Promise<void>} once the requests that wait were looked at */
function pause() {
    return new Promise((resolve) => {
        setTimeout(resolve, 1);
    });
}

export default { pause };

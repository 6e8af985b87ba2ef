/** What a user is told where something that was asked cannot be done: its message is a sentence for the page. */
export class Fault extends Error {}

/**
 * An engine of abstract state machines on the package folugben: rules as objects, agents on
 * threads, and two machines. {@link folugben_engine.Main} runs them.
 */
package folugben_engine;

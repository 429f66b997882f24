package java.util;

public abstract class AbstractList<E> extends AbstractCollection<E> {}

package java.util;

public class ArrayList<E> extends AbstractList<E> {}

package java.util;

public interface Deque<E> {}

.class public interface abstract La/Face;
.super Ljava/lang/Object;
.method public abstract faced(Ljava/lang/Object;)Ljava/lang/Object;
.end method

.class public interface abstract La/Sender;
.super Ljava/lang/Object;
.method public abstract send(Ljava/lang/Object;)V
.end method
